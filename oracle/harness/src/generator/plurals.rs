//! Seeded formattings and sheets that are full of choices by numbers, in the four
//! locales: by what their texts say, the variant that was taken is seen.

mod expressions;

use super::made::{Kind, Made};
use crate::case::{Case, Sheet};
use crate::model::number::Decimal;
use crate::plurals::numbers::decimal;
use crate::random::Random;

/// The formatting of a seed.
pub fn plurals(seed: u64) -> Case {
    Made::<Plurals>::new(seed ^ 0x4C << 48).case()
}

/// The sheet of a seed.
pub fn plurals_sheet(seed: u64) -> Sheet {
    Made::<Plurals>::new(seed ^ 0x5E4C << 40).sheet(seed ^ 0x4CAD)
}

struct Plurals;

impl Kind for Plurals {
    const TEXTS: &'static [&'static str] = &["one", "few", "other", "1", "x"];

    /// Those with more categories more often.
    fn locale(r: &mut Random) -> u8 {
        *r.pick(&[0, 0, 1, 2, 2, 3, 3, 3])
    }

    fn number(r: &mut Random) -> Decimal {
        decimal(r)
    }
}
