//! Numbers by where the table could go wrong, and seeded ones.

use crate::model::number::{Decimal, Number};
use crate::random::Random;

/// Digits of a number are below it.
const LIMIT: u64 = 1_000_000_000_000_000;

/// The minimums that are tried: not set, 0, and above.
pub const MINIMUMS: [Option<u64>; 5] = [None, Some(0), Some(1), Some(2), Some(19)];

/// A number with a type.
pub fn typed(number: &Number, ordinal: bool) -> Number {
    let mut number = number.clone();
    number.options.ordinal = ordinal;
    number
}

/// Whole numbers around hundreds and powers of ten.
pub fn borders() -> Vec<u64> {
    let mut all: Vec<u64> = (98..=103).chain(110..=115).chain(198..=203).collect();
    all.extend([210, 211, 212, 213, 214, 299, 300, 301, 399, 400]);
    for power in 1..=14 {
        let ten = 10u64.pow(power);
        all.extend([ten - 1, ten, ten + 1, ten + 11, ten + 12, ten * 2 + 13]);
    }
    all.extend([LIMIT - 1, LIMIT - 6, LIMIT - 88, LIMIT - 89, LIMIT - 100]);
    all
}

/// Numbers with zeros behind the dot and without, with each minimum.
pub fn written() -> Vec<Number> {
    let mut all = Vec::new();
    for whole in [0, 1, 2, 6, 21, 100, 101, 111, 1_002] {
        for scale in [0, 1, 11] {
            for minimum in MINIMUMS {
                let value = scaled(whole, scale);
                all.push(Number::with_minimum(value, minimum));
            }
        }
    }
    all
}

/// A whole number written with so many zeros behind the dot.
pub fn scaled(whole: u64, scale: u8) -> Decimal {
    Decimal {
        negative: false,
        digits: whole * 10u64.pow(scale.into()),
        scale,
    }
}

/// A whole number: below 100, up to 199, and of 200 and more, many of them with last
/// digits that the rules ask for.
pub fn whole(r: &mut Random) -> u64 {
    match r.below(10) {
        0..=2 => r.below(10) as u64,
        3 | 4 => r.below(100) as u64,
        5 | 6 => 100 + r.below(100) as u64,
        _ => {
            let hundreds = match r.below(3) {
                0 => 2 + r.below(20) as u64,
                _ => 2 + r.draw() % (10u64.pow(1 + r.below(13) as u32) - 2),
            };
            let last = match r.below(5) {
                0 => r.below(100),
                1 | 2 => 11 + r.below(4),
                _ => 10 * r.below(10) + 1 + r.below(4),
            };
            hundreds * 100 + last as u64
        }
    }
}

/// A number: most times whole.
pub fn decimal(r: &mut Random) -> Decimal {
    let value = match r.below(6) {
        0 => {
            let scale = 1 + r.below(12) as u8;
            let unit = 10u64.pow(scale.into());
            let whole = *r.pick(&[0, 0, 1, 1, 2, 3, 6, 11, 21, 100, 101, 112, 201]);
            let digits = whole * unit + r.draw() % unit;
            Decimal {
                negative: false,
                digits,
                scale,
            }
        }
        1 => {
            let mut value = scaled(whole(r), 0);
            for _ in 0..r.below(12) {
                if value.digits * 10 < LIMIT {
                    value.digits *= 10;
                    value.scale += 1;
                }
            }
            value
        }
        _ => scaled(whole(r), 0),
    };
    Decimal {
        negative: r.one_in(4),
        ..value
    }
}

/// A number, with a minimum or none.
pub fn number(r: &mut Random) -> Number {
    let minimum = match r.below(8) {
        0..=3 => None,
        4 | 5 => Some(0),
        6 => Some(1 + r.below(2) as u64),
        _ => Some(r.below(20) as u64),
    };
    Number::with_minimum(decimal(r), minimum)
}
