//! The generated arguments as they are listed, and in their accepted form, which
//! the original Rust and the model format alike.
#![forbid(unsafe_code)]

use fluent_bundle::FluentArgs;
use harness::case::{accepted, Given, Row, Value};
use harness::model::arguments;
use harness::model::reader::is_id;
use harness::model::sheet::Refused;
use harness::{
    encode, expected, expected_sheet, large_stack, listed, listed_sheet, rust, Listed, Listing,
    LISTINGS, PLACES,
};

fn answer(given: &[(String, Value)]) -> u8 {
    let image = encode::listed(given);
    arguments::accepted(&image).err().unwrap_or(0)
}

/// What is listed as accepted is, everything else is 19, or 13 where it has become
/// too long.
#[test]
fn answers_by_listing() {
    let mut counts = [[0; 20]; 5];
    for seed in 0..6_000 {
        let made = listed(seed);
        let at = LISTINGS.iter().position(|l| *l == made.listing);
        let said = answer(&made.listed);
        counts[at.expect("one of them")][usize::from(said)] += 1;
        assert_eq!(answer(&made.case.arguments), 0, "seed {seed}");
        let sorted = accepted(&made.listed);
        assert_eq!(sorted, made.case.arguments, "seed {seed}");
        assert_eq!(sorted == made.listed, said == 0, "seed {seed}");
        assert!(made.listed.iter().all(|(name, _)| is_id(name.as_bytes())));
    }
    for (at, listing) in LISTINGS.iter().enumerate() {
        let right = if *listing == Listing::Accepted { 0 } else { 19 };
        let all: i32 = counts[at].iter().sum();
        assert!(counts[at][right] > 900, "{listing:?}");
        let rest = all - counts[at][right] - counts[at][13];
        // an equal name and value may be put where they were by what follows
        assert!(rest * 100 < all, "{listing:?}: {rest} of {all}");
    }
}

/// The original, given what is listed, holds what it holds of the accepted form.
#[test]
fn the_original_sorts_on_insert() {
    for seed in 0..1_500 {
        let made = listed(seed);
        let (given, sorted) = (
            rust::arguments(&made.listed),
            rust::arguments(&made.case.arguments),
        );
        // none is not equal to none there
        let shown = |args: &FluentArgs| format!("{args:?}");
        assert!(shown(&given) == shown(&sorted), "seed {seed}");
    }
}

/// How many arguments, how long their names, and where those stand that are asked
/// for.
#[test]
fn sizes_and_places() {
    let (mut some, mut many, mut most) = (0, 0, 0);
    let mut places = [0; 6];
    let (mut longest, mut full) = (0, 0);
    let mut lengths = [false; 256];
    for seed in 0..6_000 {
        let made = listed(seed);
        let count = made.case.arguments.len();
        some += usize::from((40..257).contains(&count));
        many += usize::from((257..=2_000).contains(&count));
        most += usize::from(count >= 10_000);
        for (name, _) in &made.case.arguments {
            lengths[name.len()] = true;
        }
        let bytes = encode::listed(&made.case.arguments).len();
        assert!(bytes <= 65_536, "seed {seed}");
        longest = longest.max(bytes);
        full += usize::from(bytes == 65_536);
        for (at, place) in PLACES.iter().enumerate() {
            places[at] += usize::from(made.places.contains(place));
        }
    }
    assert!(some > 200 && many > 30 && most > 3, "{some} {many} {most}");
    assert!(longest == 65_536 && full > 20, "{longest} {full}");
    assert!(places.iter().all(|n| *n > 700), "{places:?}");
    assert!(lengths[1..].iter().all(|there| *there));
}

#[test]
fn the_model_and_the_original_agree() {
    large_stack(|| {
        let (mut finished, mut original, mut errors) = (0, 0, 0);
        for seed in 0..2_500 {
            let made: Listed = listed(seed);
            let e = expected(&made.case).unwrap_or_else(|d| panic!("seed {seed}: {d}"));
            assert_eq!(e.arguments, encode::arguments(&made.listed));
            if let Ok(done) = e.answer {
                finished += 1;
                original += usize::from(e.from_rust);
                errors += usize::from(done.errors > 0);
            }
        }
        assert!(
            finished > 2_000 && original > 1_900,
            "{finished} {original}"
        );
        assert!(errors > 800, "{errors}");
    });
}

#[test]
fn sheets_as_listed_and_accepted() {
    large_stack(|| {
        let (mut finished, mut refused) = (0, 0);
        for seed in 0..1_000 {
            let made = listed_sheet(seed);
            let e = expected_sheet(&made.sheet).unwrap_or_else(|d| panic!("seed {seed}: {d}"));
            let plain =
                expected_sheet(&made.accepted).unwrap_or_else(|d| panic!("seed {seed}: {d}"));
            assert_ne!(plain.answer.as_ref().err(), Some(&Refused::Cleared(19)));
            let first = made.sheet.rows.iter().position(is_refused);
            match first {
                None => assert_eq!(e.answer, plain.answer, "seed {seed}"),
                Some(_) if e.answer == Err(Refused::Cleared(19)) => refused += 1,
                // a message before it, or its own 11 or 12, comes first
                Some(_) => assert!(e.answer.is_err(), "seed {seed}"),
            }
            finished += usize::from(plain.answer.is_ok());
        }
        assert!(finished > 600 && refused > 300, "{finished} {refused}");
    });
}

/// Whether a row's arguments are refused with 19.
fn is_refused(row: &Row) -> bool {
    match &row.arguments {
        Given::Values(_) => false,
        Given::Bytes(bytes) => arguments::accepted(bytes) == Err(19),
    }
}
