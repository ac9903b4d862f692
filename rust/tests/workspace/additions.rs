//! Lists of additions: plain ones, accepted or refused, leave the figure as it
//! is where every id was found. Where one was not, and after an overriding
//! addition, it may be another.

use crate::asked::{hold, hold_edge, Asked, Left, Lengths};
use crate::cases::{arguments, bundle, by, CASES};
use crate::sheets::sheet;
use weszlagyo::operations;
use weszlagyo::syntax::message;
use weszlagyo::{FluentResource, Refusal, ResourceBuilder};

/// The length of the slice that is lent for the store.
const SLICE: usize = 8_192;

/// What is added, and what it answers.
enum Addition {
    /// An image, with a list of that length.
    Resource(Vec<u8>, usize, Result<usize, Refusal>),
    Function(&'static str, u8, Result<(), Refusal>),
}

impl Addition {
    fn make(&self, slice: &mut [u8]) {
        match self {
            Self::Resource(image, list, answer) => {
                let mut list = vec![0xAA; *list];
                assert_eq!(operations::add_resource(slice, image, &mut list), *answer);
            }
            Self::Function(id, code, answer) => {
                let made = operations::add_function(slice, id.as_bytes(), *code);
                assert_eq!(made, *answer);
            }
        }
    }
}

fn image(builder: ResourceBuilder) -> Vec<u8> {
    builder.build().expect("well-formed").image().to_vec()
}

/// A slice with the bundle at its front.
fn slice(isolating: bool) -> Vec<u8> {
    let mut slice = bundle(isolating).store().to_vec();
    assert!(slice.len() + 1_024 < SLICE, "{}", slice.len());
    slice.resize(SLICE, 0xAA);
    slice
}

/// Three that repeat ids of others, one of them of another kind.
fn repeated() -> Vec<u8> {
    let again = FluentResource::builder()
        .message("name", "a humpback whale")
        .message("whale", "a message, not the term")
        .message("kite", "кит, кит");
    image(again)
}

/// What is missing in some of the messages.
fn missing() -> Vec<u8> {
    let later = FluentResource::builder()
        .message("later", by(message("name")))
        .message("nothing", "not missing any more");
    image(later)
}

fn additions() -> Vec<Addition> {
    use Addition::{Function, Resource};
    let long = FluentResource::builder().message("long", "x".repeat(SLICE));
    let malformed = b"no image".to_vec();
    vec![
        Resource(repeated(), 99, Ok(3)),
        Resource(repeated(), 5, Err(Refusal::SHORT_LIST)),
        Resource(malformed, 99, Err(Refusal::MALFORMED_RESOURCE)),
        Resource(image(long), 99, Err(Refusal::FULL_STORE)),
        Function("NUMBER", 1, Err(Refusal::HELD_ID)),
        Function("name", 1, Err(Refusal::HELD_ID)),
        Function("no id", 1, Err(Refusal::NO_ID)),
        Function("OTHER", 2, Err(Refusal::NO_CODE)),
        Function("OTHER", 1, Ok(())),
        Resource(missing(), 5, Ok(0)),
        Resource(image(FluentResource::builder()), 5, Ok(0)),
        Resource(missing(), 99, Ok(2)),
    ]
}

/// That a formatting finishes as it did, with the workspace of the figure it
/// had, and with no byte less.
fn hold_unchanged(slice: &[u8], asked: &Asked, before: &Left) {
    let (figures, text, list) = before.written();
    assert_eq!(hold_edge(slice, asked, figures.work), figures);
    let now = asked.finished(slice);
    assert_eq!(now.written(), (figures, text, list));
}

#[test]
fn plain_additions_leave_the_figure() {
    for isolating in [false, true] {
        let mut slice = slice(isolating);
        let found = CASES.iter().filter(|case| case.unfound == 0);
        let asked: Vec<Asked> = found
            .map(|case| Asked::message(case.id, None, &arguments()))
            .chain([Asked::message("name", Some("choice"), &arguments())])
            .collect();
        let before: Vec<Left> = asked.iter().map(|one| one.finished(&slice)).collect();
        for addition in additions() {
            addition.make(&mut slice);
            for (one, before) in asked.iter().zip(&before) {
                hold_unchanged(&slice, one, before);
            }
        }
    }
}

#[test]
fn plain_additions_leave_the_figure_of_a_sheet() {
    let mut slice = slice(true);
    let found = CASES.iter().filter(|case| case.unfound == 0);
    let ids: Vec<&str> = found.map(|case| case.id).collect();
    let asked = Asked::Sheet(sheet(&ids));
    let before = asked.finished(&slice);
    assert_eq!(
        (before.written().0.work, before.written().0.unfound),
        (699, 0)
    );
    for addition in additions() {
        addition.make(&mut slice);
        hold_unchanged(&slice, &asked, &before);
    }
}

/// A message that was not found was written as `{nothing}`, 9 bytes. Once it is
/// there, its own 20 are needed.
#[test]
fn where_an_id_was_not_found_an_addition_may_change_the_figure() {
    let mut slice = slice(false);
    let message = Asked::message("lost", None, &arguments());
    let sheet = Asked::Sheet(sheet(&["lost", "by-message"]));
    for asked in [&message, &sheet] {
        assert_eq!(hold(&slice, asked, 9).unfound, 1);
    }
    Addition::Resource(missing(), 99, Ok(0)).make(&mut slice);
    for asked in [&message, &sheet] {
        assert_eq!(hold(&slice, asked, 20).unfound, 0);
        let kept = asked.call(&slice, Lengths::new(99, 99, 9), 0);
        assert_eq!(kept.answer, Err(Refusal::SHORT_WORKSPACE));
    }
}

/// `minke` gives way to a longer name, and to a shorter one.
#[test]
fn an_overriding_addition_may_change_the_figure() {
    let mut slice = slice(false);
    let message = Asked::message("by-message", None, &arguments());
    let sheet = Asked::Sheet(sheet(&["plain", "by-message", "by-attribute"]));
    for asked in [&message, &sheet] {
        assert_eq!(hold(&slice, asked, 5).unfound, 0);
    }
    for (name, figure) in [("humpback", 8), ("orc", 3)] {
        let other = FluentResource::builder()
            .message("name", name)
            .attribute("short", "o");
        let added = operations::add_resource_overriding(&mut slice, &image(other));
        assert_eq!(added, Ok(()));
        for asked in [&message, &sheet] {
            assert_eq!(hold(&slice, asked, figure).unfound, 0);
        }
    }
}
