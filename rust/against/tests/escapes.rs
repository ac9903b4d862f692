//! The crate's formattings and sheets by the escapes of their string literals.
#![forbid(unsafe_code)]

mod counted;

use against::escapes::{self, Escapes};
use against::Tally;
use counted::{counted, generated};
use harness::model::escapes::Escapes as Seen;

#[test]
fn generated_escapes() {
    let counts = generated(
        70_000..70_400,
        &[escapes::compare_formatting, escapes::compare_sheet],
    );
    let said = counts.escapes;
    assert_eq!(said.cases, 800);
    assert!(said.texts > 700 && said.texts_reading > 650, "{said}");
    assert!(said.originals > 650 && said.told(), "{said}");
    let read = said.escapes;
    assert!(read.short > 5_000 && read.long > 10_000, "{said}");
    assert!(read.replaced > 2_000 && read.fewest() > 1_000, "{said}");
    let changed = said.changed;
    assert!(changed.other > 100 && changed.same > 100, "{said}");
    assert!(changed.refused > 300, "{said}");
    for answer in [0, 4, 7, 15, 16] {
        assert!(counts.answers[answer] > 100, "{answer}");
    }
}

/// 704 formattings, 662 literals in resources that are added, 648 that are refused
/// there and in a store, and 53 changed stores.
#[test]
fn worked_out_by_hand() {
    let counts = counted(escapes::by_hand);
    let said = counts.escapes;
    // 16 read no escape
    assert_eq!((said.cases, said.texts, said.originals), (704, 704, 688));
    assert!(said.told() && said.changed.other > 200, "{said}");
    assert_eq!(counts.answers[5], 648);
    assert!(counts.answers[4] > 648, "{}", counts.answers[4]);
}

#[test]
fn sheets_by_hand() {
    let said = counted(escapes::sheets_by_hand).escapes;
    assert_eq!((said.cases, said.texts, said.originals), (8, 8, 8));
}

/// The sums of what was counted.
#[test]
fn sums() {
    let seen = Seen {
        short: 5,
        long: 7,
        replaced: 2,
        digits: std::array::from_fn(|at| at + 1),
    };
    let mut one = Escapes {
        cases: 20,
        ..Escapes::default()
    };
    one.finished(Seen::default(), true);
    assert!(!one.told());
    one.finished(seen, true);
    one.finished(seen, false);
    one.damaged(Seen::default());
    one.damaged(seen);
    one.changed.other = 3;
    one.changed.same = 4;
    one.changed.refused = 6;
    assert!(one.told());
    assert_eq!((one.texts, one.texts_reading, one.originals), (3, 2, 1));
    assert_eq!((one.escapes.all(), one.escapes.fewest()), (24, 2));
    assert_eq!((one.from_damaged, one.from_damaged_reading), (2, 1));
    let mut sum = one;
    sum.add(&one);
    assert_eq!((sum.cases, sum.texts, sum.texts_reading), (40, 6, 4));
    assert_eq!((sum.originals, sum.escapes.replaced), (2, 8));
    assert_eq!(sum.escapes.digits[21], 88);
    assert_eq!((sum.from_damaged, sum.from_damaged_reading), (4, 2));
    let said = sum.to_string();
    assert!(said.contains("4 texts with an escape, 2 of them the original Rust's own; 6 texts"));
    assert!(said.contains("48 escapes read, 20 with \\u and 28 with \\U, 8 of them no scalar"));
    assert!(said.contains("each of the 22 digits at least 4 times"));
    assert!(said.contains("14 digits changed to another one, 6 of them gave another text or"));
    assert!(said.contains("12 to what is no digit, all refused"));
    assert_eq!(Escapes::default().to_string(), "");
}

/// A run in which one digit is missing is no run, but for a short one.
#[test]
fn nothing_told() {
    let of = |cases, digits| Escapes {
        cases,
        escapes: Seen {
            digits,
            ..Seen::default()
        },
        ..Escapes::default()
    };
    assert!(of(20, [1; 22]).told() && of(100_000, [1; 22]).told());
    for at in 0..22 {
        let mut digits = [1; 22];
        digits[at] = 0;
        assert!(!of(20, digits).told() && of(19, digits).told());
    }
}
