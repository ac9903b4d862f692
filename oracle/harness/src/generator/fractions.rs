//! Seeded formattings and sheets with numbers in every place, most of them with a
//! minimum of 0 fraction digits, so that the original Rust ends many with a dot.

mod expressions;

use super::made::{Kind, Made};
use crate::case::{Case, Sheet};
use crate::model::number::Decimal;
use crate::random::Random;
use crate::vectors::numbers::decimal;

/// The formatting of a seed.
pub fn fractions(seed: u64) -> Case {
    Made::<Fractions>::new(seed ^ 0x3D << 48).case()
}

/// The sheet of a seed.
pub fn fractions_sheet(seed: u64) -> Sheet {
    Made::<Fractions>::new(seed ^ 0x5E3D << 40).sheet(seed ^ 0x3DAD)
}

struct Fractions;

impl Kind for Fractions {
    const TEXTS: &'static [&'static str] = &["5", "x5", "x", "one", ".", "5."];

    fn locale(r: &mut Random) -> u8 {
        match r.one_in(3) {
            true => 0,
            false => r.below(4) as u8,
        }
    }

    /// Most of them whole.
    fn number(r: &mut Random) -> Decimal {
        let small = |r: &mut Random, scale: u8| Decimal {
            negative: r.one_in(5),
            digits: *r.pick(&[0, 1, 1, 2, 3, 5, 5, 6, 11, 12, 21, 100, 105]),
            scale,
        };
        match r.below(8) {
            0..=3 => small(r, 0),
            4 => small(r, 1),
            5 => small(r, 14),
            6 => Decimal {
                scale: 0,
                ..decimal(r)
            },
            _ => decimal(r),
        }
    }
}
