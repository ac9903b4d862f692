//! CLDR's samples, and what follows from them by CLDR's rules.

use super::numbers::typed;
use super::Told;
use crate::cldr;
use crate::model::number::{Decimal, Number};
use crate::model::plural_table::number_of;

/// What is added to a sample: each has no last two digits.
const ADDED: [u64; 3] = [100, 1_000, 123_400];

/// The category that a sample of a category has once such a number is added to its
/// whole part. CLDR 41's rules:
///
/// - ru, cardinal: one `v = 0 and i % 10 = 1 and i % 100 != 11`; few `v = 0 and i % 10
///   = 2..4 and i % 100 != 12..14`; many `v = 0 and i % 10 = 0 or v = 0 and i % 10 =
///   5..9 or v = 0 and i % 100 = 11..14`. en, ordinal: `n % 10 = 1 and n % 100 != 11`,
///   2 and 12, 3 and 13. They ask for v and the last two digits, which stay.
/// - en, cardinal: `i = 1 and v = 0`. da, cardinal: `n = 1 or t != 0 and i = 0,1`. cy,
///   cardinal: n = 0, 1, 2, 3, 6; ordinal: n = 0,7,8,9, then 1, 2, then 3,4, then 5,6.
///   None of these holds from 100 on.
/// - da and ru, ordinal: no rule.
fn above(locale: u8, ordinal: bool, category: &'static str) -> &'static str {
    match (locale, ordinal) {
        (2, false) | (0, true) => category,
        _ => "other",
    }
}

/// Each sample; its negative, as all operands are those of the absolute value (so 0
/// gives minus zero); and three numbers of 100 and more, with both signs.
pub(super) fn samples() -> Vec<Told> {
    let mut all = Vec::new();
    for rule in &cldr::SAMPLES {
        for (sample, minimum) in cldr::expand(rule.samples) {
            let unit = 10u64.pow(sample.scale.into());
            let with = |added: u64| sample.digits + added * unit;
            let above = above(rule.locale, rule.ordinal, rule.category);
            let mut numbers = vec![(sample.digits, rule.category)];
            numbers.extend(ADDED.map(|added| (with(added), above)));
            for (digits, category) in numbers {
                for negative in [false, true] {
                    let value = Decimal {
                        negative,
                        digits,
                        ..sample
                    };
                    let number = Number::with_minimum(value, minimum);
                    all.push(Told {
                        locale: rule.locale,
                        number: typed(&number, rule.ordinal),
                        category: number_of(category),
                    });
                }
            }
        }
    }
    all
}
