//! Buffers that keep their lengths, and those that grow.

use crate::asked::Asked;
use crate::cases::{arguments, bundle, CASES};
use crate::sheets::sheet;
use weszlagyo::syntax::message;
use weszlagyo::{builtins, Buffers, FluentError, FluentResource, Refusal, ResolverError};

/// What is formatted: `three` has 1 byte of text and needs 13 of the workspace,
/// `by-bare` lists an error, with which the list has 14 bytes.
const LIST: usize = 14;

#[test]
fn a_message_in_fixed_buffers() {
    let (bundle, given) = (bundle(false), arguments());
    for case in CASES {
        let usual = bundle.format(case.id, None, Some(&given));
        let usual = usual.expect("formatted");
        let asked = Asked::message(case.id, None, &given).finished(bundle.store());
        let (figures, text, list) = asked.written();
        let lengths = (text.len(), list.len(), figures.work);
        let mut buffers = Buffers::fixed(lengths.0, lengths.1, lengths.2);
        assert!(buffers.is_fixed());
        let done = bundle.format_in(&mut buffers, case.id, None, Some(&given));
        assert_eq!(done, Ok(figures));
        assert_eq!(buffers.text(figures), usual.text);
        assert_eq!(buffers.errors(figures), usual.errors);
        assert_eq!(buffers.lengths(), lengths);
        if let Some(less) = figures.work.checked_sub(1) {
            let mut buffers = Buffers::fixed(4_096, 4_096, less);
            let refused = bundle.format_in(&mut buffers, case.id, None, Some(&given));
            assert_eq!(refused, Err(Refusal::SHORT_WORKSPACE));
            assert_eq!(buffers.lengths(), (4_096, 4_096, less));
        }
    }
}

#[test]
fn a_sheet_in_fixed_buffers() {
    let bundle = bundle(false);
    let sheet = sheet(&["plain", "three", "by-bare"]);
    let mut buffers = Buffers::fixed(7, LIST, 13);
    let figures = bundle.format_sheet_in(&mut buffers, &sheet);
    let figures = figures.expect("it fits");
    assert_eq!((figures.text, figures.work), (7, 13));
    assert_eq!(buffers.text(figures), "Hello3x");
    let bare = ResolverError::NoValue("bare".into());
    assert_eq!(buffers.errors(figures), [FluentError::from(bare)]);
    for (text, list, work, refusal) in [
        (6, LIST, 13, Refusal::SHORT_TEXT),
        (7, LIST - 1, 13, Refusal::SHORT_LIST),
        (7, 4, 13, Refusal::SHORT_LIST),
        (7, LIST, 12, Refusal::SHORT_WORKSPACE),
        (7, LIST, 0, Refusal::SHORT_WORKSPACE),
        (0, 0, 0, Refusal::SHORT_LIST),
    ] {
        let mut buffers = Buffers::fixed(text, list, work);
        let refused = bundle.format_sheet_in(&mut buffers, &sheet);
        assert_eq!(refused, Err(refusal));
        assert_eq!(buffers.lengths(), (text, list, work));
    }
}

/// A refusal leaves them as good as new.
#[test]
fn fixed_buffers_are_used_again() {
    let (bundle, given) = (bundle(false), arguments());
    let mut buffers = Buffers::fixed(5, LIST, 5);
    let mut format = |id: &str| {
        let figures = bundle.format_in(&mut buffers, id, None, Some(&given))?;
        Ok(buffers.text(figures).into_owned())
    };
    assert_eq!(format("by-message"), Ok("x".into()));
    assert_eq!(format("three"), Err(Refusal::SHORT_WORKSPACE));
    assert_eq!(format("plain"), Ok("Hello".into()));
    assert_eq!(format("filled"), Err(Refusal::SHORT_TEXT));
    assert_eq!(format("by-bare"), Err(Refusal::SHORT_WORKSPACE));
    assert_eq!(format("second"), Ok("3".into()));
    assert_eq!(format("nowhere"), Err(Refusal::NO_MESSAGE));
    assert_eq!(format("by-message"), Ok("x".into()));
}

/// Buffers that were chosen once do for as long as nothing is overridden.
#[test]
fn fixed_buffers_are_kept_through_additions() {
    let (mut bundle, given) = (bundle(true), arguments());
    let mut long = Buffers::default();
    let needed = bundle.format_in(&mut long, "by-inner", None, Some(&given));
    let needed = needed.expect("formatted");
    let mut buffers = Buffers::fixed(needed.text, 5, needed.work);
    let again = FluentResource::builder()
        .message("name", "a humpback whale")
        .message("inner", "in a longer text than it was")
        .message("later", message("inner"));
    let again = again.build().expect("well-formed");
    assert_eq!(bundle.add_resource(&again).map_err(|e| e.len()), Err(2));
    assert_eq!(bundle.add_function("OTHER", builtins::NUMBER), Ok(()));
    assert!(bundle.add_builtins().is_err());
    let done = bundle.format_in(&mut buffers, "by-inner", None, Some(&given));
    assert_eq!((done, buffers.text(needed)), (Ok(needed), "x".into()));
    bundle.add_resource_overriding(&again).expect("room");
    let refused = bundle.format_in(&mut buffers, "by-inner", None, Some(&given));
    assert_eq!(refused, Err(Refusal::SHORT_WORKSPACE));
}

/// Those that are not fixed grow, and the figure does not go by their lengths.
#[test]
fn other_buffers_grow() {
    let (bundle, given) = (bundle(true), arguments());
    let mut none = Buffers::with_lengths(0, 0, 0);
    assert!(!none.is_fixed() && !Buffers::default().is_fixed());
    assert_eq!(Buffers::default().lengths(), (256, 256, 256));
    let figures = bundle.format_in(&mut none, "by-around", None, Some(&given));
    let figures = figures.expect("formatted");
    assert_eq!(none.lengths(), (256, 256, 1_024));
    assert_eq!(figures.work, 699);
    for work in [699, 700, 65_536] {
        let mut buffers = Buffers::with_lengths(99, 99, work);
        let again = bundle.format_in(&mut buffers, "by-around", None, Some(&given));
        assert_eq!(again, Ok(figures));
        assert_eq!(buffers.lengths(), (99, 99, work));
    }
}
