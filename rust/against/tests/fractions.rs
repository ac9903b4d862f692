//! The crate's formattings and sheets by their fraction digits.
#![forbid(unsafe_code)]

use against::fractions::{self, Fractions};
use against::{Counts, Tally};
use harness::large_stack;
use harness::model::number::Seen;

#[test]
fn generated_numbers() {
    let counts = large_stack(|| {
        let mut counts = Counts::default();
        for seed in 60_000..60_400 {
            fractions::compare_formatting(seed, &mut counts)?;
            fractions::compare_sheet(seed, &mut counts)?;
        }
        Ok::<_, String>(counts)
    });
    let counts = counts.expect("nothing differs");
    let said = counts.fractions;
    assert_eq!(said.cases, 800);
    assert!(said.texts > 500 && said.texts_losing_dot > 400, "{said}");
    assert!(
        said.numbers > 3_000 && said.numbers_losing_dot > 1_000,
        "{said}"
    );
    assert!(said.selectors_losing_dot > 100, "{said}");
    assert!(said.originals > 300 && said.told(), "{said}");
    for answer in [0, 7, 15, 16, 4] {
        assert!(counts.answers[answer] > 100, "{answer}");
    }
}

#[test]
fn worked_out_by_hand() {
    let counts = large_stack(|| {
        let mut counts = Counts::default();
        fractions::by_hand(&mut counts)?;
        fractions::sheets_by_hand(&mut counts)?;
        Ok::<_, String>(counts)
    });
    let counts = counts.expect("nothing differs");
    for answer in [0, 4, 7, 11, 12, 13, 15, 16, 17, 19] {
        assert!(counts.answers[answer] > 0, "{answer}");
    }
    assert!(counts.fractions.texts_losing_dot > 100 && counts.fractions.told());
}

/// The sums of what was counted.
#[test]
fn counted() {
    let seen = Seen {
        texts: 5,
        texts_losing_dot: 2,
        selectors: 3,
        selectors_losing_dot: 1,
        ..Seen::default()
    };
    let none = Seen {
        texts_losing_dot: 0,
        ..seen
    };
    let mut one = Fractions {
        cases: 20,
        ..Fractions::default()
    };
    one.finished(none, true);
    assert!(!one.told());
    one.finished(seen, true);
    one.finished(seen, false);
    one.damaged(none);
    one.damaged(seen);
    assert!(one.told());
    assert_eq!((one.texts, one.texts_losing_dot, one.originals), (3, 2, 1));
    assert_eq!((one.numbers, one.numbers_losing_dot), (15, 4));
    assert_eq!((one.selectors, one.selectors_losing_dot), (9, 3));
    assert_eq!((one.from_damaged, one.from_damaged_losing_dot), (2, 1));
    let mut sum = one;
    sum.add(&one);
    assert_eq!((sum.cases, sum.texts, sum.texts_losing_dot), (40, 6, 4));
    assert_eq!(
        (sum.numbers, sum.numbers_losing_dot, sum.originals),
        (30, 8, 2)
    );
    assert_eq!((sum.selectors, sum.selectors_losing_dot), (18, 6));
    assert_eq!((sum.from_damaged, sum.from_damaged_losing_dot), (4, 2));
    assert!(sum.to_string().contains("30 texts of numbers, 8 of them"));
    assert_eq!(Fractions::default().to_string(), "");
}

/// A run in which no number loses its dot is no run, but for a short one.
#[test]
fn nothing_told() {
    let empty = |cases| Fractions {
        cases,
        ..Fractions::default()
    };
    assert!(!empty(20).told() && !empty(100_000).told());
    assert!(empty(19).told() && empty(0).told());
}
