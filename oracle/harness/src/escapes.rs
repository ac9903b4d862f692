//! String literals and what they read as, worked out by hand from document 01's words
//! (document 02's Card 5, by which a digit's value comes from arithmetic, changes no
//! answer): every digit at every place, values at borders, Welsh words, and literals
//! that are refused; and formattings, sheets and changed stores with them.

mod borders;
mod changed;
mod digits;
mod places;
mod refused;
mod words;

use crate::case::{Bundle, Case, Item, Sheet, Value};
use crate::fractions::change;
use crate::generator::placeable;
use crate::model::number::literal;
use crate::nesting::written;
use crate::{boundaries, encode, ftl, sheet_points};
use borders::BORDERS;
use changed::CHANGES;
use digits::DIGITS;
use fluent_syntax::ast::{Entry, InlineExpression, Pattern, Resource};
use places::{ISOLATING, PLAIN, SHEETS, SOURCE, TEXT};
use std::collections::HashSet;
use words::WORDS;

/// A string literal and its text.
#[derive(Clone, Debug)]
pub struct Told {
    pub literal: String,
    pub text: &'static [u8],
}

/// All that are well-formed, each once.
pub fn told() -> Vec<Told> {
    let words = WORDS.iter().map(|(literal, text)| Told {
        literal: literal.to_string(),
        text,
    });
    let all = by_digit().into_iter().chain(by_border()).chain(words);
    let mut seen = HashSet::new();
    all.filter(|told| seen.insert(told.literal.clone()))
        .collect()
}

/// Each of the 22 digits at each place of both escapes.
pub fn by_digit() -> Vec<Told> {
    let mut all = Vec::new();
    for (letters, texts) in DIGITS {
        for digit in letters.chars() {
            for (at, text) in texts.into_iter().enumerate() {
                let mut digits = ["0"; 6].concat();
                digits.replace_range(at..=at, &digit.to_string());
                add_escapes(&mut all, &digits, text);
            }
        }
    }
    all
}

/// Values at borders, with capital letters, small ones, and some of both.
fn by_border() -> Vec<Told> {
    let mut all = Vec::new();
    for (digits, text) in BORDERS {
        for small in [|_| false, |_| true, |n| n % 2 == 0, |n| n % 2 == 1] {
            add_escapes(&mut all, &in_letters(digits, small), text);
        }
    }
    all
}

/// Six digits; those of the letters are small whose place among the letters is one.
fn in_letters(digits: &str, small: fn(usize) -> bool) -> String {
    let mut letters = 0;
    let one = |digit: char| {
        letters += usize::from(digit.is_ascii_alphabetic());
        match small(letters) {
            true => digit.to_ascii_lowercase(),
            false => digit,
        }
    };
    digits.chars().map(one).collect()
}

/// The escape of six digits and, where the first two are 0, that of the other four.
fn add_escapes(all: &mut Vec<Told>, digits: &str, text: &'static [u8]) {
    let mut add = |literal| all.push(Told { literal, text });
    add(format!("\\U{digits}"));
    if let Some(four) = digits.strip_prefix("00") {
        add(format!("\\u{four}"));
    }
}

/// The literals that are refused, not all of them UTF-8.
pub fn refused() -> Vec<Vec<u8>> {
    refused::all()
}

/// How many places a literal may have in an image.
pub const PLACES: usize = boundaries::PLACES;

/// A resource image of the message `a` with this literal: alone, in arguments, as a
/// selector, and so on, by a number below `PLACES`.
pub fn image(literal: &[u8], place: usize) -> Vec<u8> {
    boundaries::image_with(literal, place)
}

/// A store with that image.
pub fn store(literal: &[u8]) -> Vec<u8> {
    boundaries::store_with(&image(literal, 0))
}

/// A formatting, its text, and its workspace figure.
pub struct Formatting {
    pub case: Case,
    pub text: String,
    pub figure: usize,
}

/// All formattings of `a`: first those whose value is a literal and nothing else.
pub fn formattings() -> Vec<Formatting> {
    let alone = told().into_iter().map(|told| Formatting {
        case: case(true, alone(&told.literal)),
        text: String::from_utf8(told.text.to_vec()).expect("it is text"),
        figure: 0,
    });
    let placed = |isolating| {
        move |(figure, source, text): &(usize, &str, &str)| Formatting {
            case: case(isolating, ftl::resource(source)),
            text: written(text),
            figure: *figure,
        }
    };
    alone
        .chain(ISOLATING.iter().map(placed(true)))
        .chain(PLAIN.iter().map(placed(false)))
        .collect()
}

/// The message `a` with a literal.
fn alone(literal: &str) -> Resource<String> {
    let mut resource = ftl::resource("a = { \"\" }");
    let [Entry::Message(message)] = &mut resource.body[..] else {
        panic!("one message")
    };
    let value = literal.into();
    let string = placeable(InlineExpression::StringLiteral { value });
    let elements = vec![string];
    message.value = Some(Pattern { elements });
    resource
}

fn case(isolating: bool, resource: Resource<String>) -> Case {
    let one = literal(b"1").expect("a number").0;
    Case {
        bundle: Bundle {
            locale: 0,
            isolating,
            items: vec![Item::Function("NUMBER".into()), Item::Plain(resource)],
        },
        message: "a".into(),
        attribute: None,
        arguments: vec![
            ("n".into(), Value::Number(one)),
            ("s".into(), Value::Text(TEXT.into())),
        ],
    }
}

/// A sheet, its text, and its figure.
pub struct Printed {
    pub sheet: Sheet,
    pub text: &'static str,
    pub figure: usize,
}

/// All sheets.
pub fn sheets() -> Vec<Printed> {
    let all = SHEETS.iter().map(|(figure, rows, text)| Printed {
        sheet: sheet_points::sheet(SOURCE, rows),
        text,
        figure: *figure,
    });
    all.collect()
}

/// A store with some bytes changed, and what formatting `a` gives: its text, or its
/// refusal.
pub struct Changed {
    pub store: Vec<u8>,
    pub said: Result<&'static str, u8>,
}

/// All changed stores.
pub fn changed() -> Vec<Changed> {
    let all = CHANGES.iter().map(|(source, from, to, said)| {
        let case = case(true, ftl::resource(source));
        let mut store = encode::store(&case.bundle);
        change(&mut store, from, to);
        Changed { store, said: *said }
    });
    all.collect()
}
