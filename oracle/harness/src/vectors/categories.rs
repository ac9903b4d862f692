//! categories.vec: categories by the plural table of document 02's Card 4, and by the
//! conditions where it is left. The table itself comes first, then numbers behind its
//! end and at borders, those worked out by hand, CLDR's samples with what follows from
//! them, zeros behind the dot and minimums, then seeded numbers.

use super::numbers::category_case;
use super::{File, Seeded, CASES};
use crate::model::number::Number;
use crate::model::plural_table::{self, number_of};
use crate::plurals::numbers::{borders, number, scaled, typed, written};
use crate::plurals::{by_hand, samples};
use crate::random::Random;

/// What gives the category of a number in a locale.
pub type CategoryOf = fn(&Number, u8) -> u8;

pub fn make(seed: u64, cases: usize) -> File {
    make_by(seed, cases, plural_table::category)
}

/// The file, with this in the table's place.
pub fn make_by(seed: u64, cases: usize, by_table: CategoryOf) -> File {
    let mut w = Writer {
        file: File::default(),
        by_table,
    };
    let whole = |n: u64| Number::plain(scaled(n, 0));
    w.in_lines((0..200).map(whole));
    w.in_lines((200..=320).map(whole));
    w.in_lines(borders().into_iter().map(whole));
    for told in by_hand().into_iter().chain(samples()) {
        let number = &told.number;
        assert_eq!(by_table(number, told.locale), told.category, "{number:?}");
        w.category(told.locale, number);
    }
    w.in_lines(written().into_iter());
    let from = seed.wrapping_mul(29_000_009);
    w.until(3000 * cases / CASES, from, Writer::seeded);
    w.file
}

struct Writer {
    file: File,
    by_table: CategoryOf,
}

impl Seeded for Writer {
    fn file(&self) -> &File {
        &self.file
    }
}

impl Writer {
    /// The numbers in each locale and with each type, in the order of the table.
    fn in_lines(&mut self, numbers: impl Iterator<Item = Number> + Clone) {
        for locale in 0..4 {
            for ordinal in [false, true] {
                for number in numbers.clone() {
                    self.category(locale, &typed(&number, ordinal));
                }
            }
        }
    }

    fn seeded(&mut self, seed: u64) {
        let mut r = Random::new(seed);
        let number = typed(&number(&mut r), r.one_in(2));
        self.category(r.below(4) as u8, &number);
    }

    /// A case on which all three ways agree.
    fn category(&mut self, locale: u8, number: &Number) {
        let category = (self.by_table)(number, locale);
        let by_conditions = number_of(number.category(locale));
        assert_eq!(category, by_conditions, "{locale} {number:?}");
        category_case(&mut self.file, locale, number);
    }
}
