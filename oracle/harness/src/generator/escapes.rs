//! Seeded formattings and sheets whose string literals are full of escapes, and such
//! literals by themselves.

mod expressions;
mod literals;

use super::made::{Kind, Made};
use crate::case::{Case, Sheet};
use crate::model::number::Decimal;
use crate::plurals::numbers::decimal;
use crate::random::Random;
pub use literals::literal;

/// The formatting of a seed.
pub fn escapes(seed: u64) -> Case {
    Made::<Escapes>::new(seed ^ 0x5C << 48).case()
}

/// The sheet of a seed.
pub fn escapes_sheet(seed: u64) -> Sheet {
    Made::<Escapes>::new(seed ^ 0x5E5C << 40).sheet(seed ^ 0x5CAD)
}

struct Escapes;

impl Kind for Escapes {
    /// In an argument a backslash is a letter like any other.
    const TEXTS: &'static [&'static str] = &[
        "one",
        "dwr",
        "ŵ",
        "x",
        "\\",
        "\\u0175",
        "\\u006Fne",
        "\\x41",
    ];

    fn locale(r: &mut Random) -> u8 {
        r.below(4) as u8
    }

    fn number(r: &mut Random) -> Decimal {
        decimal(r)
    }
}
