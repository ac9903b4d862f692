//! Categories by the plural table (document 02's Card 4), held to document 01's
//! conditions, to the Rust, to CLDR's samples and to what was worked out by hand.
#![forbid(unsafe_code)]

use fluent_bundle::{FluentBundle, FluentResource};
use harness::model::number::{Decimal, Number};
use harness::model::plural_table::{self, held, number_of, place, way, ENTRIES, LINE};
use harness::plurals::numbers::{borders, number, scaled, typed, written, MINIMUMS};
use harness::plurals::{by_hand, formattings, samples};
use harness::random::Random;
use harness::rust::number::{bundle, category_in};
use harness::vectors::categories::{make, make_by, CategoryOf};
use harness::{expected, large_stack};

/// The Rust in the four locales.
struct Rust([FluentBundle<FluentResource>; 4]);

impl Rust {
    fn new() -> Self {
        Self([0, 1, 2, 3].map(bundle))
    }

    fn category(&self, number: &Number, locale: u8) -> u8 {
        category_in(&self.0[usize::from(locale)], number)
    }

    /// All three ways to the category of a number agree; gives it.
    fn agreed(&self, number: &Number, locale: u8) -> u8 {
        let by_rust = self.category(number, locale);
        let by_conditions = number_of(number.category(locale));
        let by_table = plural_table::category(number, locale);
        let all = [by_rust, by_conditions, by_table];
        assert_eq!(all, [by_rust; 3], "{locale} {number:?}");
        by_rust
    }

    /// They agree in every locale, with both types and both signs.
    fn agree(&self, number: &Number) {
        for locale in 0..4 {
            for ordinal in [false, true] {
                let mut number = typed(number, ordinal);
                let category = self.agreed(&number, locale);
                number.value.negative = !number.value.negative;
                assert_eq!(self.agreed(&number, locale), category);
            }
        }
    }
}

fn whole(n: u64) -> Number {
    Number::plain(scaled(n, 0))
}

/// The eight lines, by hand.
#[test]
fn the_lines() {
    let others = |count: usize| "5".repeat(count);
    // 0 and 10 to 19 apart, the same in every ten
    let tens = |ten: &str, teens: &str| [ten, teens, &ten.repeat(8)].concat().repeat(2);
    let one = "51".to_string() + &others(198);
    let lines = [
        one.clone(),
        tens("5123555555", "5555555555"),
        one,
        others(200),
        tens("4133344444", "4444444444"),
        others(200),
        "0123554".to_string() + &others(193),
        "0123344000".to_string() + &others(190),
    ];
    let printed = held().printed();
    assert_eq!(printed.len(), 1_608);
    assert_eq!(String::from_utf8_lossy(&printed), lines.join("\n") + "\n");
    assert_eq!((ENTRIES, held().entries().len()), (1_600, 1_600));
}

/// What the program in Rattle printed.
#[test]
fn the_printed_table() {
    let path = "../../crates/plural_table/stdout";
    let path = format!("{}/{path}", env!("CARGO_MANIFEST_DIR"));
    let stored = std::fs::read(&path).unwrap_or_else(|e| panic!("{path}: {e}"));
    assert!(stored == held().printed(), "{path} is another table");
}

/// Entry ((locale × 2) + type) × 200 + k; n below 100, else 100 + n mod 100.
#[test]
fn the_entries() {
    assert_eq!(place(0, false, 0), 0);
    assert_eq!(place(0, true, 0), 200);
    assert_eq!(place(1, false, 7), 407);
    assert_eq!(place(3, true, 199), 1_599);
    for (n, k) in [
        (0, 0),
        (99, 99),
        (100, 100),
        (199, 199),
        (200, 100),
        (299, 199),
        (1_007, 107),
        (999_999_999_999_999, 199),
    ] {
        for locale in 0..4 {
            for ordinal in [false, true] {
                let wanted = held().entries()[place(locale, ordinal, k)];
                assert_eq!(held().entry(locale, ordinal, n), wanted);
            }
        }
    }
}

#[test]
fn whole_numbers() {
    let rust = Rust::new();
    for n in 0..=20_000 {
        rust.agree(&whole(n));
    }
}

/// At borders, with zeros behind the dot as far as they fit, and with each minimum.
#[test]
fn at_borders() {
    let rust = Rust::new();
    let mut count = 0;
    for n in borders() {
        for scale in [0, 1, 2, 7, 14] {
            if n * 10u64.pow(scale) >= 1_000_000_000_000_000 {
                continue;
            }
            for minimum in MINIMUMS {
                rust.agree(&Number::with_minimum(scaled(n, scale as u8), minimum));
                count += 1;
            }
        }
    }
    for number in written() {
        rust.agree(&number);
        count += 1;
    }
    assert!(count > 1_500, "{count}");
}

#[test]
fn fractions() {
    let rust = Rust::new();
    for digits in 0..=2_500 {
        for scale in [1, 2, 14] {
            for minimum in MINIMUMS {
                let value = Decimal {
                    negative: false,
                    digits,
                    scale,
                };
                rust.agree(&Number::with_minimum(value, minimum));
            }
        }
    }
}

/// Seeded numbers; each way to a category and each category comes often.
#[test]
fn generated() {
    let rust = Rust::new();
    let mut r = Random::new(4);
    let (mut ways, mut categories) = ([0; 4], [0; 6]);
    for _ in 0..100_000 {
        let number = typed(&number(&mut r), r.one_in(2));
        let category = rust.agreed(&number, r.below(4) as u8);
        ways[way(&number) as usize] += 1;
        categories[usize::from(category)] += 1;
    }
    assert!(ways.iter().all(|n| *n > 10_000), "{ways:?}");
    assert!(categories.iter().all(|n| *n > 700), "{categories:?}");
}

#[test]
fn cldr_samples() {
    let rust = Rust::new();
    let all = samples();
    for told in &all {
        let number = &told.number;
        let found = rust.agreed(number, told.locale);
        assert_eq!(found, told.category, "{} {number:?}", told.locale);
    }
    // each with both signs, and with three numbers added
    assert_eq!(all.len(), 367 * 8);
}

#[test]
fn worked_out_by_hand() {
    let rust = Rust::new();
    let all = by_hand();
    let mut ways = [0; 4];
    for told in &all {
        let number = &told.number;
        let found = rust.agreed(number, told.locale);
        assert_eq!(found, told.category, "{} {number:?}", told.locale);
        ways[way(number) as usize] += 1;
    }
    assert_eq!(all.len(), 145 * 8);
    assert!(ways.iter().all(|n| *n >= 8 * 9), "{ways:?}");
}

/// The same in a message.
#[test]
fn formattings_by_hand() {
    for point in formattings() {
        let e = expected(&point.case).expect("they agree");
        let done = e.answer.as_ref().expect("it finishes");
        let text = String::from_utf8_lossy(&done.text);
        assert_eq!(text, point.text, "{:?}", point.case);
        let numbers = e.prepared.as_ref().expect("it has effects").numbers;
        assert_eq!((numbers.choices.asked, numbers.choices.taken), (1, 1));
        assert!(e.from_rust);
    }
}

/// How many numbers from 0 to 320, by locale and type, have another category by this
/// than by the conditions: of whole ones with v = 0, and of those with v = 1.
fn differ(by_table: impl Fn(&Number, u8) -> u8) -> [[usize; 2]; 8] {
    let mut count = [[0; 2]; 8];
    for (at, of_line) in count.iter_mut().enumerate() {
        let (locale, ordinal) = (at as u8 / 2, at % 2 == 1);
        for (minimum, sum) in of_line.iter_mut().enumerate() {
            for n in 0..=320 {
                let number = Number::with_minimum(scaled(n, 0), Some(minimum as u64));
                let number = typed(&number, ordinal);
                let wanted = number_of(number.category(locale));
                *sum += usize::from(by_table(&number, locale) != wanted);
            }
        }
    }
    count
}

/// Every entry, were it another one, would be noticed: below 100 by one number, from
/// 100 on by each that has its last two digits.
#[test]
fn every_wrong_entry_is_noticed() {
    assert_eq!(differ(plural_table::category), [[0; 2]; 8]);
    for at in 0..ENTRIES {
        let wrong = held().with(at, (held().entries()[at] + 1) % 6);
        let count = differ(|number, locale| wrong.category(number, locale));
        let k = at % LINE;
        let mut wanted = [[0; 2]; 8];
        wanted[at / LINE][0] = match k {
            0..100 => 1,
            100..=120 => 3,
            _ => 2,
        };
        assert_eq!(count, wanted, "entry {at}");
    }
}

/// One entry is wrong: Welsh 100 is said to be zero.
fn wrong_entry(number: &Number, locale: u8) -> u8 {
    let wrong = held().with(place(3, false, 100), number_of("zero"));
    wrong.category(number, locale)
}

/// From 100 on it takes entry n mod 100.
fn folded(number: &Number, locale: u8) -> u8 {
    let mut folded = number.clone();
    if number.value.shortest().scale == 0 {
        folded.value = scaled(number.value.whole() % 100, 0);
    }
    plural_table::category(&folded, locale)
}

/// It takes the table for whole numbers with v above 0, too.
fn any_minimum(number: &Number, locale: u8) -> u8 {
    match number.value.shortest().scale {
        0 => held().entry(locale, number.options.ordinal, number.value.whole()),
        _ => plural_table::category(number, locale),
    }
}

/// Where each of them differs: 100, 200 and 300 of the first; of the second 101, 201
/// and 301 of en and da, and what cy names, but for ru and en's ordinals; of the third
/// en's 1, all of ru.
#[test]
fn where_wrong_tables_differ() {
    let [v0, v1] = [0, 1];
    let at = |count: [[usize; 2]; 8], v: usize| count.map(|of_line| of_line[v]);
    assert_eq!(at(differ(wrong_entry), v0), [0, 0, 0, 0, 0, 0, 3, 0]);
    assert_eq!(at(differ(wrong_entry), v1), [0; 8]);
    assert_eq!(at(differ(folded), v0), [3, 0, 3, 0, 0, 0, 15, 30]);
    assert_eq!(at(differ(any_minimum), v0), [0; 8]);
    assert_eq!(at(differ(any_minimum), v1), [1, 0, 0, 0, 321, 0, 0, 0]);
}

/// Writing the vectors with one of them stops; with the right one it does not.
fn stops(by_table: CategoryOf) -> bool {
    std::panic::catch_unwind(|| make_by(100, 240, by_table)).is_err()
}

#[test]
fn wrong_tables_are_noticed() {
    assert!(!stops(plural_table::category));
    assert!(stops(wrong_entry));
    assert!(stops(folded));
    assert!(stops(any_minimum));
}

/// And with a wrong Rust.
#[test]
#[should_panic]
fn a_wrong_plural_rule_is_noticed() {
    intl_pluralrules::plant_wrong_rule(true);
    make(100, 240);
}

#[test]
fn other_seeds() {
    large_stack(|| {
        for seed in 100..103 {
            let count = make(seed, 2400).count();
            assert!((9_000..11_000).contains(&count), "{count}");
        }
    });
}
