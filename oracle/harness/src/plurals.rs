//! Numbers with their categories (document 02's Card 4): those that were worked out by
//! hand, CLDR's samples and what follows from them; formattings that choose by them;
//! and the numbers that are tried, at borders and seeded.

mod by_hand;
pub mod numbers;
mod samples;

use crate::case::{Bundle, Case, Item, Value};
use crate::ftl;
use crate::model::number::{literal, Number};
use crate::model::plural_table::CATEGORIES;
use by_hand::BY_HAND;
use numbers::typed;

/// A number with its type in a locale, and its category.
pub struct Told {
    pub locale: u8,
    pub number: Number,
    pub category: u8,
}

/// All that were worked out by hand, in the four locales and with both types.
pub fn by_hand() -> Vec<Told> {
    let mut all = Vec::new();
    for (text, minimum, categories) in BY_HAND {
        let (value, _) = literal(text.as_bytes()).expect("a number");
        let minimum = (minimum != "-").then(|| minimum.parse().expect("a count"));
        let digits: Vec<u8> = categories.bytes().filter(|b| *b != b' ').collect();
        assert_eq!(digits.len(), 8, "{text}");
        let number = Number::with_minimum(value, minimum);
        for (at, digit) in digits.into_iter().enumerate() {
            all.push(Told {
                locale: at as u8 / 2,
                number: typed(&number, at % 2 == 1),
                category: digit - b'0',
            });
        }
    }
    all
}

/// CLDR's samples, their negatives, and what follows from them above 100.
pub fn samples() -> Vec<Told> {
    samples::samples()
}

/// A formatting that chooses by a number, and its text.
pub struct Formatting {
    pub case: Case,
    pub text: &'static str,
}

/// Of each that was worked out by hand a formatting of `a`, whose text names the
/// category.
pub fn formattings() -> Vec<Formatting> {
    let all = by_hand().into_iter().map(|told| Formatting {
        case: case(&told),
        text: CATEGORIES[usize::from(told.category)],
    });
    all.collect()
}

fn case(told: &Told) -> Case {
    let mut options = String::new();
    if told.number.options.ordinal {
        options += ", type: \"ordinal\"";
    }
    if let Some(minimum) = told.number.minimum() {
        options += &format!(", minimumFractionDigits: {minimum}");
    }
    let selector = match options.as_str() {
        "" => "$n".into(),
        options => format!("NUMBER($n{options})"),
    };
    let variants: String = CATEGORIES.map(|word| format!("[{word}] {word} ")).concat();
    let source = format!("a = {{ {selector} -> {variants}*[o] o }}");
    Case {
        bundle: Bundle {
            locale: told.locale,
            isolating: true,
            items: vec![
                Item::Function("NUMBER".into()),
                Item::Plain(ftl::resource(&source)),
            ],
        },
        message: "a".into(),
        attribute: None,
        arguments: vec![("n".into(), Value::Number(told.number.value))],
    }
}
