//! numbers.vec: literals, number text, categories, NUMBER, equality, matching.

mod comparisons;
mod fields;
mod function;
mod literals;
mod texts;
mod values;

use super::{File, CASES};
use crate::random::Random;
use comparisons::{equality_case, match_case};
use function::{first, function_case, options, First, Given};
use literals::{literal_case, literal_text, LITERALS};
use texts::{samples, text_case};
use values::{boundary_numbers, number, number_of, telling_numbers};

pub use function::{count, word};
pub(super) use texts::category_case;
pub use values::decimal;

pub fn make(seed: u64, cases: usize) -> File {
    let mut r = Random::new(seed ^ 1);
    let mut file = File::default();
    let share = |n: usize| n * cases / CASES;
    for text in LITERALS {
        literal_case(&mut file, text);
    }
    fill(&mut file, share(4000), |f| {
        let text = literal_text(&mut r);
        literal_case(f, &text);
    });
    for number in boundary_numbers() {
        text_case(&mut file, &number);
    }
    fill(&mut file, share(5000), |f| text_case(f, &number(&mut r)));
    for number in telling_numbers() {
        text_case(&mut file, &number);
    }
    samples(&mut file);
    for locale in 0..4 {
        for ordinal in [false, true] {
            for mut number in boundary_numbers() {
                number.options.ordinal = ordinal;
                category_case(&mut file, locale, &number);
            }
        }
    }
    fill(&mut file, share(6500), |f| {
        let mut number = number(&mut r);
        number.options.ordinal = r.one_in(2);
        category_case(f, r.below(4) as u8, &number);
    });
    for value in [First::Absent, First::None, First::Text("5".into())] {
        for options in [
            vec![],
            vec![("minimumFractionDigits", Given::Number("20".into()))],
        ] {
            function_case(&mut file, &value, &options);
        }
    }
    for minimum in [
        "0",
        "2",
        "19",
        "19.99",
        "20",
        "20.0",
        "-20",
        "-0",
        "999999999999999",
    ] {
        let first = First::Number(number_of("5", None));
        let options = vec![("minimumFractionDigits", Given::Number(minimum.into()))];
        function_case(&mut file, &first, &options);
    }
    fill(&mut file, share(1500), |f| {
        let first = first(&mut r);
        function_case(f, &first, &options(&mut r));
    });
    fill(&mut file, share(800), |f| equality_case(f, &mut r));
    fill(&mut file, share(3000), |f| match_case(f, &mut r));
    file
}

/// Adds until `n` new cases are there.
fn fill(file: &mut File, n: usize, mut add: impl FnMut(&mut File)) {
    let end = file.count() + n;
    while file.count() < end {
        add(file);
    }
}
