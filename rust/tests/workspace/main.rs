//! The workspace figure, as one who chooses a workspace meets it: stated as
//! numbers that were worked out by hand, and kept to by the operations, for
//! messages and for sheets. It is exactly what is needed: a workspace of that
//! length finishes alike, any shorter one is refused, and plain additions do not
//! change it.
#![forbid(unsafe_code)]

mod additions;
mod asked;
mod cases;
mod fixed;
mod sheets;

use asked::{hold, Asked, Lengths};
use cases::{arguments, bundle, Case, CASES};
use std::collections::HashSet;
use weszlagyo::{FluentArgs, Refusal};

/// Text without the marks that isolate.
fn unmarked(text: &str) -> String {
    text.replace(['\u{2068}', '\u{2069}'], "")
}

fn hold_case(case: &Case, isolating: bool) {
    let bundle = bundle(isolating);
    let given = arguments();
    let done = bundle
        .format(case.id, None, Some(&given))
        .expect("formatted");
    assert_eq!(unmarked(&done.text), case.text, "{}", case.id);
    let counts = (done.figures.errors, done.figures.unfound);
    assert_eq!(counts, (case.errors, case.unfound), "{}", case.id);
    let asked = Asked::message(case.id, None, &given);
    let figures = hold(bundle.store(), &asked, case.figure(isolating));
    assert_eq!(figures, done.figures, "{}", case.id);
}

#[test]
fn figures_without_isolation_marks() {
    CASES.iter().for_each(|case| hold_case(case, false));
}

#[test]
fn figures_with_isolation_marks() {
    CASES.iter().for_each(|case| hold_case(case, true));
}

#[test]
fn every_case_has_its_own_id() {
    let ids: HashSet<&str> = CASES.iter().map(|case| case.id).collect();
    assert_eq!(ids.len(), CASES.len());
    let (needs, none): (Vec<_>, Vec<_>) = CASES.iter().partition(|case| case.plain > 0);
    assert!(needs.len() >= 25 && none.len() >= 8);
}

#[test]
fn an_attribute_has_its_own_figure() {
    let bundle = bundle(false);
    for (attribute, figure) in [("short", 0), ("choice", 5)] {
        let asked = Asked::message("name", Some(attribute), &arguments());
        hold(bundle.store(), &asked, figure);
    }
    hold(
        bundle.store(),
        &Asked::message("name", None, &arguments()),
        0,
    );
}

/// Other arguments need another workspace: an inline placeable's text is as long
/// as what is filled in.
#[test]
fn the_figure_goes_by_the_arguments() {
    let bundle = bundle(false);
    for (name, figure) in [
        ("", 0),
        ("a", 1),
        ("Ås", 3),
        ("горбатый кит", 23),
        ("\u{1F40B}", 4),
    ] {
        let given = FluentArgs::from_iter([("name", name)]);
        let asked = Asked::message("by-placeable", None, &given);
        hold(bundle.store(), &asked, figure);
    }
    for (n, figure) in [(0, 1), (-7, 2), (65_536, 5)] {
        let given = FluentArgs::from_iter([("name", n)]);
        let asked = Asked::message("by-placeable", None, &given);
        hold(bundle.store(), &asked, figure);
    }
}

/// Where the figure is 0, no workspace is needed at all.
#[test]
fn no_workspace_where_the_figure_is_0() {
    let bundle = bundle(false);
    for case in CASES.iter().filter(|case| case.plain == 0) {
        let asked = Asked::message(case.id, None, &arguments());
        let lengths = Lengths::new(99, 99, 0);
        let left = asked.call(bundle.store(), lengths, 0xAA);
        let figures = left.answer.expect("formatted");
        assert_eq!((figures.work, left.work.len()), (0, 0), "{}", case.id);
        assert_eq!(&left.text[..figures.text], case.text.as_bytes());
    }
}

/// What is met before 16 is said in its place: a text or list that is too short.
#[test]
fn text_and_list_must_be_as_long() {
    let bundle = bundle(false);
    // the text, of 1 byte, is written when the selector has been made
    let asked = Asked::message("by-message", None, &arguments());
    let refusals = [
        (Lengths::new(1, 5, 5), None),
        (Lengths::new(0, 5, 5), Some(Refusal::SHORT_TEXT)),
        (Lengths::new(0, 5, 4), Some(Refusal::SHORT_WORKSPACE)),
        (Lengths::new(1, 4, 4), Some(Refusal::SHORT_LIST)),
    ];
    for (lengths, refusal) in refusals {
        let left = asked.call(bundle.store(), lengths, 7);
        assert_eq!(left.answer.err(), refusal);
    }
    // an error is listed before its text is written
    let asked = Asked::message("lost", None, &arguments());
    let left = asked.call(bundle.store(), Lengths::new(9, 5, 8), 7);
    assert_eq!(left.answer, Err(Refusal::SHORT_LIST));
}
