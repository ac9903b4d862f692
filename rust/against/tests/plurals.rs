//! The crate's formattings and sheets by their choices by numbers.
#![forbid(unsafe_code)]

use against::plurals::{self, Plurals};
use against::{Counts, Tally};
use harness::large_stack;
use harness::model::number::Seen;
use harness::model::plural_table::Choices;

#[test]
fn generated_choices() {
    let counts = large_stack(|| {
        let mut counts = Counts::default();
        for seed in 60_000..60_400 {
            plurals::compare_formatting(seed, &mut counts)?;
            plurals::compare_sheet(seed, &mut counts)?;
        }
        Ok::<_, String>(counts)
    });
    let counts = counts.expect("nothing differs");
    let said = counts.plurals;
    assert_eq!(said.cases, 800);
    assert!(said.texts > 700 && said.texts_choosing > 600, "{said}");
    assert!(said.originals > 600 && said.told(), "{said}");
    let choices = said.choices;
    assert!(said.selectors > 5_000 && choices.asked > 5_000, "{said}");
    assert!(choices.ways.iter().all(|n| *n > 500), "{said}");
    assert!(choices.categories.iter().all(|n| *n > 50), "{said}");
    for answer in [0, 4, 7, 15, 16] {
        assert!(counts.answers[answer] > 100, "{answer}");
    }
}

#[test]
fn worked_out_by_hand() {
    let counts = large_stack(|| {
        let mut counts = Counts::default();
        plurals::by_hand(&mut counts)?;
        Ok::<_, String>(counts)
    });
    let said = counts.expect("nothing differs").plurals;
    assert_eq!(
        (said.cases, said.texts, said.originals),
        (1_160, 1_160, 1_160)
    );
    assert_eq!((said.choices.asked, said.choices.taken), (1_160, 1_160));
    assert!(said.told(), "{said}");
}

/// The sums of what was counted.
#[test]
fn counted() {
    let choices = Choices {
        asked: 10,
        taken: 7,
        ways: [4, 3, 2, 1],
        categories: [1, 1, 1, 1, 1, 5],
    };
    let seen = Seen {
        selectors: 12,
        choices,
        ..Seen::default()
    };
    let none = Seen {
        selectors: 1,
        ..Seen::default()
    };
    let mut one = Plurals {
        cases: 200,
        ..Plurals::default()
    };
    one.finished(none, true);
    assert!(!one.told());
    one.finished(seen, true);
    one.finished(seen, false);
    one.damaged(none);
    one.damaged(seen);
    assert!(one.told());
    assert_eq!((one.texts, one.texts_choosing, one.originals), (3, 2, 1));
    assert_eq!(
        (one.selectors, one.choices.asked, one.choices.taken),
        (25, 20, 14)
    );
    assert_eq!((one.from_damaged, one.from_damaged_choosing), (2, 1));
    let mut sum = one;
    sum.add(&one);
    assert_eq!((sum.cases, sum.texts, sum.texts_choosing), (400, 6, 4));
    assert_eq!((sum.originals, sum.selectors), (2, 50));
    assert_eq!(sum.choices.ways, [16, 12, 8, 4]);
    assert_eq!(sum.choices.categories, [4, 4, 4, 4, 4, 20]);
    assert_eq!((sum.from_damaged, sum.from_damaged_choosing), (4, 2));
    let said = sum.to_string();
    assert!(said.contains("50 choices by a number, 40 of them by its category"));
    assert!(said.contains("12 by the conditions (8 whole with v above 0, 4 with"));
    assert!(said.contains("zero 4, one 4, two 4, few 4, many 4, other 20; 28 took"));
    assert_eq!(Plurals::default().to_string(), "");
}

/// A run in which one way or one category is missing is no run, but for a short one.
#[test]
fn nothing_told() {
    let full = Choices {
        asked: 6,
        taken: 6,
        ways: [2, 2, 1, 1],
        categories: [1; 6],
    };
    let of = |cases, choices| Plurals {
        cases,
        choices,
        ..Plurals::default()
    };
    assert!(of(200, full).told() && of(100_000, full).told());
    for at in 0..10 {
        let mut choices = full;
        match at {
            0..4 => choices.ways[at] = 0,
            _ => choices.categories[at - 4] = 0,
        }
        assert!(!of(200, choices).told() && of(199, choices).told());
    }
}
