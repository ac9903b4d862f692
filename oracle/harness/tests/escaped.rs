//! Generated formattings and sheets whose string literals are full of escapes, and
//! what the model counts of these.
#![forbid(unsafe_code)]

mod generated;

use harness::model::escapes::{Escapes, DIGITS};
use harness::model::resolve::Resolution;
use harness::{escapes, escapes_sheet, expected, large_stack};

fn see(seen: &mut Escapes, message: &Resolution) -> bool {
    seen.add(&message.escapes);
    message.escapes.all() > 0
}

/// The generated formattings have what they are for, and both sides agree on them.
#[test]
fn generated_formattings() {
    let said = generated::formattings(0..6_000, escapes, see);
    assert!(said.finished > 5_500 && said.with > 5_000, "{said:?}");
    assert!(said.originals > 5_500, "{said:?}");
    assert!(said.with_workspace > 3_000, "{said:?}");
    assert!(said.locales.iter().all(|n| *n > 1_000), "{said:?}");
    assert!((2_500..3_500).contains(&said.isolating), "{said:?}");
    let seen = &said.seen;
    assert!(seen.short > 20_000 && seen.long > 30_000, "{said:?}");
    assert!(seen.replaced > 8_000 && seen.fewest() > 4_000, "{said:?}");
    for answer in [11, 12] {
        assert!(said.refused[answer] > 5, "{said:?}");
    }
}

#[test]
fn generated_sheets() {
    let said = generated::sheets(0..2_000, escapes_sheet, see);
    assert!(said.finished > 1_500 && said.rows > 10_000, "{said:?}");
    assert!(said.with > 1_500, "{said:?}");
    let seen = &said.seen;
    assert!(seen.short > 30_000 && seen.long > 50_000, "{said:?}");
    assert!(seen.replaced > 10_000 && seen.fewest() > 5_000, "{said:?}");
}

/// Of 20 formattings, and of 20 sheets, each has all digits.
#[test]
fn twenty_have_every_digit() {
    for first in (0..2_000).step_by(20) {
        let seeds = first..first + 20;
        let said = generated::formattings(seeds.clone(), escapes, see);
        assert!(said.seen.fewest() > 0, "{first}: {said:?}");
        let said = generated::sheets(seeds, escapes_sheet, see);
        assert!(said.seen.fewest() > 0, "{first}: {said:?}");
    }
}

#[test]
fn by_their_seeds() {
    generated::by_their_seeds(escapes, escapes_sheet);
}

/// A wrong stand-in is noticed.
#[test]
fn a_wrong_escape_is_noticed() {
    large_stack(|| {
        fluent_syntax::unicode::plant_wrong_escape(true);
        let differ = (0..200).filter(|seed| expected(&escapes(*seed)).is_err());
        let differ = differ.count();
        assert!(differ > 50, "{differ}");
    });
}

/// Messages, and what is read for them: escapes with `u`, with `U`, those that are no
/// scalar, and the digits of all.
#[rustfmt::skip]
const SEEN: [(&str, usize, usize, usize, &str); 14] = [
    (r#"a = x"#, 0, 0, 0, ""),
    (r#"a = \u0041{ $s }"#, 0, 0, 0, ""),
    (r#"a = { "x0041" }"#, 0, 0, 0, ""),
    (r#"a = { "\\u0041\"" }"#, 0, 0, 0, ""),
    (r#"a = { "\u0041" }"#, 1, 0, 0, "0041"),
    (r#"a = { "\u00411" }"#, 1, 0, 0, "0041"),
    (r#"a = { "\U01f40B" }"#, 0, 1, 0, "01f40B"),
    (r#"a = { "\uD83d\udC0B" }"#, 2, 0, 2, "D83ddC0B"),
    (r#"a = { "\uFFFD\U110000" }"#, 1, 1, 1, "FFFD110000"),
    // as selectors and arguments; not in a variant that is not taken
    (r#"a = { "\u0041" -> *[o] x }"#, 1, 0, 0, "0041"),
    (r#"a = { "\u0041" -> [A] x *[o] { "\u0042" } }"#, 1, 0, 0, "0041"),
    (r#"a = { NUMBER(1, "\u0041", x: "\u0042") }"#, 2, 0, 0, "00410042"),
    // each time that it is read
    ("a = { b }{ b }\nb = { \"\\u0041\" }", 2, 0, 0, "00410041"),
    ("a = x\nb = { \"\\u0041\" }", 0, 0, 0, ""),
];

/// How often each digit comes, in the order of `DIGITS`.
fn digits_of(digits: &str) -> [usize; 22] {
    DIGITS.map(|digit| digits.bytes().filter(|byte| *byte == digit).count())
}

/// What the model counts of escapes, on some messages.
#[test]
fn escapes_that_are_seen() {
    for (source, short, long, replaced, digits) in SEEN {
        let digits = digits_of(digits);
        let wanted = Escapes {
            short,
            long,
            replaced,
            digits,
        };
        assert_eq!(*generated::message(source).escapes, wanted, "{source}");
    }
}
