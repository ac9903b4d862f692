//! Sheets: the figure is the largest of the messages'.

use crate::asked::{hold, Asked, Lengths};
use crate::cases::{arguments, bundle, CASES};
use weszlagyo::{FluentArgs, Refusal, Sheet};

/// A sheet of these messages, all with the usual arguments.
pub fn sheet(ids: &[&str]) -> Sheet {
    let mut sheet = Sheet::new();
    for id in ids {
        sheet.push(id, None, Some(&arguments())).expect("it fits");
    }
    sheet
}

#[test]
fn sheets_that_need_no_workspace() {
    let bundle = bundle(true);
    let none: Vec<&str> = CASES
        .iter()
        .filter(|case| case.isolated == 0)
        .map(|case| case.id)
        .collect();
    for ids in [[].as_slice(), &["plain"], &none] {
        hold(bundle.store(), &Asked::Sheet(sheet(ids)), 0);
    }
}

#[test]
fn the_largest_of_the_messages_wherever_it_stands() {
    let bundle = bundle(false);
    // 0, 5, 13 and 6
    let mut ids = ["plain", "by-message", "three", "by-wide"];
    for _ in 0..ids.len() {
        ids.rotate_left(1);
        let figures = hold(bundle.store(), &Asked::Sheet(sheet(&ids)), 13);
        assert_eq!((figures.text, figures.begun), (8, 3));
    }
    let without = ["plain", "by-message", "by-wide"];
    hold(bundle.store(), &Asked::Sheet(sheet(&without)), 6);
}

/// The workspace is empty at each message's start: nothing adds up.
#[test]
fn a_message_many_times() {
    let bundle = bundle(false);
    let asked = Asked::Sheet(sheet(&["by-message"; 30]));
    let figures = hold(bundle.store(), &asked, 5);
    assert_eq!((figures.text, figures.begun), (30, 30));
}

#[test]
fn all_the_messages() {
    let ids: Vec<&str> = CASES.iter().map(|case| case.id).collect();
    let unfound = CASES.iter().map(|case| case.unfound).sum();
    for isolating in [false, true] {
        let largest = CASES.iter().map(|case| case.figure(isolating)).max();
        assert_eq!(largest, Some(if isolating { 699 } else { 111 }));
        let bundle = bundle(isolating);
        let asked = Asked::Sheet(sheet(&ids));
        let figures = hold(bundle.store(), &asked, largest.expect("some"));
        assert_eq!(figures.unfound, unfound);
    }
}

/// Each message has its own arguments: 1, 23 and 3 bytes of an inline placeable,
/// and an attribute's 5.
#[test]
fn the_largest_by_the_arguments() {
    let bundle = bundle(false);
    let mut sheet = Sheet::new();
    for (name, figure) in [("a", 5), ("горбатый кит", 23), ("Ås", 23)] {
        let given = FluentArgs::from_iter([("name", name)]);
        sheet.push("name", Some("choice"), None).expect("it fits");
        sheet
            .push("by-placeable", None, Some(&given))
            .expect("it fits");
        hold(bundle.store(), &Asked::Sheet(sheet.clone()), figure);
    }
}

/// The message that needs more meets 16, though those before it are done; and
/// one before it that is refused for something else comes first.
#[test]
fn the_first_refusal_is_the_sheet_s() {
    let bundle = bundle(false);
    let asked = Asked::Sheet(sheet(&["filled", "by-message", "three", "nowhere"]));
    for (work, refusal) in [
        (4, Refusal::SHORT_WORKSPACE),
        (12, Refusal::SHORT_WORKSPACE),
        (13, Refusal::NO_MESSAGE),
    ] {
        let left = asked.call(bundle.store(), Lengths::new(99, 99, work), 0xAA);
        assert_eq!(left.answer, Err(refusal));
        let mut all = [&left.text, &left.list, &left.work].into_iter().flatten();
        assert!(all.all(|b| *b == 0));
    }
    let asked = Asked::Sheet(sheet(&["filled", "nowhere", "three"]));
    let left = asked.call(bundle.store(), Lengths::new(99, 99, 0), 0xAA);
    assert_eq!(left.answer, Err(Refusal::NO_MESSAGE));
}
