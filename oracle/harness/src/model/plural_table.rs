//! Document 02's Card 4: a table of 1,600 categories, and the category of a number by
//! it. It is a second way to a category, beside the conditions in `number.rs`: the
//! conditions for whole numbers are written down here once more, and `number.rs` is
//! asked only where the card leaves the table.

use super::number::Number;
use std::sync::LazyLock;

/// The categories by their numbers.
pub const CATEGORIES: [&str; 6] = ["zero", "one", "two", "few", "many", "other"];

const ZERO: u8 = 0;
const ONE: u8 = 1;
const TWO: u8 = 2;
const FEW: u8 = 3;
const MANY: u8 = 4;
const OTHER: u8 = 5;

/// The entries of one locale and one type.
pub const LINE: usize = 200;

/// Four locales, cardinal then ordinal.
pub const ENTRIES: usize = 4 * 2 * LINE;

/// The number of a category.
pub fn number_of(category: &str) -> u8 {
    let at = CATEGORIES.iter().position(|word| *word == category);
    at.expect("a category") as u8
}

/// A category, and when a whole number with v = 0 has it. Then i and n are the same,
/// and t is 0.
type Condition = (u8, fn(u64) -> bool);

/// Document 01's conditions for a locale (0 en, 1 da, 2 ru, 3 cy) and a type; where
/// none of them holds it is `other`.
fn conditions(locale: u8, ordinal: bool) -> &'static [Condition] {
    match (locale, ordinal) {
        (0 | 1, false) => &[(ONE, |n| n == 1)],
        (2, false) => &[
            (ONE, |n| n % 10 == 1 && n % 100 != 11),
            (FEW, |n| {
                [2, 3, 4].contains(&(n % 10)) && ![12, 13, 14].contains(&(n % 100))
            }),
            (MANY, |_| true),
        ],
        (3, false) => &[
            (ZERO, |n| n == 0),
            (ONE, |n| n == 1),
            (TWO, |n| n == 2),
            (FEW, |n| n == 3),
            (MANY, |n| n == 6),
        ],
        (0, true) => &[
            (ONE, |n| n % 10 == 1 && n % 100 != 11),
            (TWO, |n| n % 10 == 2 && n % 100 != 12),
            (FEW, |n| n % 10 == 3 && n % 100 != 13),
        ],
        (3, true) => &[
            (ZERO, |n| [0, 7, 8, 9].contains(&n)),
            (ONE, |n| n == 1),
            (TWO, |n| n == 2),
            (FEW, |n| [3, 4].contains(&n)),
            (MANY, |n| [5, 6].contains(&n)),
        ],
        _ => &[],
    }
}

/// The table: of each line, entry k is the category of k, for k from 0 to 199.
pub struct Table([u8; ENTRIES]);

static HELD: LazyLock<Table> = LazyLock::new(Table::new);

/// The table by the conditions, made once.
pub fn held() -> &'static Table {
    &HELD
}

/// Where entry k of a line stands.
pub fn place(locale: u8, ordinal: bool, k: usize) -> usize {
    assert!(locale < 4 && k < LINE);
    (usize::from(locale) * 2 + usize::from(ordinal)) * LINE + k
}

impl Table {
    fn new() -> Self {
        let mut entries = [OTHER; ENTRIES];
        for locale in 0..4 {
            for ordinal in [false, true] {
                for k in 0..LINE {
                    let mut all = conditions(locale, ordinal).iter();
                    if let Some((category, _)) = all.find(|(_, holds)| holds(k as u64)) {
                        entries[place(locale, ordinal, k)] = *category;
                    }
                }
            }
        }
        Self(entries)
    }

    /// The same with another category in one place.
    pub fn with(&self, place: usize, category: u8) -> Self {
        let mut entries = self.0;
        entries[place] = category;
        Self(entries)
    }

    pub fn entries(&self) -> &[u8] {
        &self.0
    }

    /// The entry of a whole number with v = 0: n below 100, else 100 + n mod 100.
    pub fn entry(&self, locale: u8, ordinal: bool, n: u64) -> u8 {
        let k = match n {
            0..100 => n,
            _ => 100 + n % 100,
        };
        self.0[place(locale, ordinal, k as usize)]
    }

    /// The category of a number: of a whole one with v = 0 by the table, of any other
    /// by the conditions.
    pub fn category(&self, number: &Number, locale: u8) -> u8 {
        match way(number) {
            Way::Below | Way::From => {
                let n = number.value.whole();
                self.entry(locale, number.options.ordinal, n)
            }
            Way::Zeros | Way::Fraction => number_of(number.category(locale)),
        }
    }

    /// What the program prints: eight lines of 200 digits.
    pub fn printed(&self) -> Vec<u8> {
        let mut out = Vec::new();
        for line in self.0.chunks(LINE) {
            out.extend(line.iter().map(|category| b'0' + category));
            out.push(b'\n');
        }
        out
    }
}

/// The category of a number by the held table.
pub fn category(number: &Number, locale: u8) -> u8 {
    held().category(number, locale)
}

/// The way to the category of a number.
#[derive(Clone, Copy, Debug, PartialEq, Eq)]
pub enum Way {
    /// By the table, below 100.
    Below,
    /// By the table, of 100 and more.
    From,
    /// By the conditions: whole, with v above 0.
    Zeros,
    /// By the conditions: with a fraction.
    Fraction,
}

pub fn way(number: &Number) -> Way {
    let shortest = number.value.shortest();
    match (shortest.scale, number.minimum().unwrap_or(0)) {
        (0, 0) if shortest.digits < 100 => Way::Below,
        (0, 0) => Way::From,
        (0, _) => Way::Zeros,
        _ => Way::Fraction,
    }
}

/// The categories of numbers that a formatting chooses by, counted.
#[derive(Clone, Copy, Debug, Default, PartialEq, Eq)]
pub struct Choices {
    /// Choices by a number whose category is asked: some key before the one that is
    /// taken, or itself, is an id.
    pub asked: usize,
    /// Those in which a variant of the number's category is taken.
    pub taken: usize,
    /// By the table below 100, of 100 and more; by the conditions without a fraction,
    /// and with one.
    pub ways: [usize; 4],
    /// By their category.
    pub categories: [usize; 6],
}

impl Choices {
    /// A choice by a number, whose category the two ways agree on.
    pub(super) fn count(&mut self, number: &Number, locale: u8, taken: bool) {
        let by_table = category(number, locale);
        let by_conditions = number_of(number.category(locale));
        assert_eq!(by_table, by_conditions, "{locale} {number:?}");
        self.asked += 1;
        self.taken += usize::from(taken);
        self.ways[way(number) as usize] += 1;
        self.categories[usize::from(by_table)] += 1;
    }

    /// Those of another formatting, too.
    pub fn add(&mut self, other: &Self) {
        self.asked += other.asked;
        self.taken += other.taken;
        for (sum, n) in self.ways.iter_mut().zip(other.ways) {
            *sum += n;
        }
        for (sum, n) in self.categories.iter_mut().zip(other.categories) {
            *sum += n;
        }
    }
}
