//! A sheet of 30 messages: in one call, in thirty, and by the original's thirty
//! `format_pattern`.

use crate::timed::{race, row, Timed};
use against::convert;
use against::sheet::Printed;
use harness::rust::{self, RustBundle};
use std::borrow::Cow;
use std::hint::black_box;
use weszlagyo::{operations, Buffers, FluentArgs, FluentBundle, Sheet};

/// Room for the text of the sheet, or of a message; and for the rest.
const TEXT: usize = 8_192;
const ROOM: usize = 256;

/// A message for the crate: its id, its arguments, and their image.
struct Message<'a> {
    id: &'a str,
    args: FluentArgs<'a>,
    image: Vec<u8>,
}

/// A message for the original.
pub type Theirs<'a> = (&'a str, fluent_bundle::FluentArgs<'a>);

/// Times a sheet, whose bundle is at hand on both sides, in one run.
pub fn rows(name: &str, printed: &Printed) {
    let original = rust::bundle(&printed.bundle);
    let theirs: Vec<Theirs> = printed
        .messages
        .iter()
        .map(|(id, given)| (id.as_str(), rust::arguments(given)))
        .collect();
    let messages: Vec<Message> = printed.messages.iter().map(message).collect();
    let bundle = printed.made();
    let store = bundle.store();
    let sheet = sheet(&messages);
    assert_eq!(in_one_call(&bundle, &sheet), joined(&original, &theirs));

    let mut buffers = Buffers::with_lengths(TEXT, ROOM, ROOM);
    let (mut text, mut list, mut work) = ([0; TEXT], [0; ROOM], [0; ROOM]);
    let (mut text_2, mut list_2, mut work_2) = ([0; TEXT], [0; ROOM], [0; ROOM]);
    let mut target = vec![0; store.len()];
    let [one, built, thirty, thirty_in, original, copy] = race([
        Timed::new(|| {
            let image = sheet.image();
            let answer = operations::format_sheet(store, image, &mut text, &mut list, &mut work);
            black_box(answer.expect("formatted"));
        }),
        Timed::new(|| {
            let parts = messages.iter().map(|m| (m.id, None, Some(&m.args)));
            let mut errors = vec![];
            black_box(bundle.format_sheet(parts, &mut errors).len());
        }),
        Timed::new(|| {
            for m in &messages {
                let (text, list, work) = (&mut text_2, &mut list_2, &mut work_2);
                let id = m.id.as_bytes();
                let answer = operations::format(store, id, None, &m.image, text, list, work);
                black_box(answer.expect("formatted"));
            }
        }),
        Timed::new(|| {
            for m in &messages {
                let answer = bundle.format_in(&mut buffers, m.id, None, Some(&m.args));
                black_box(answer.expect("formatted"));
            }
        }),
        Timed::new(|| {
            for one in &theirs {
                black_box(format_theirs(&original, one).len());
            }
        }),
        Timed::new(|| black_box(&mut target).copy_from_slice(black_box(store))),
    ]);
    row(
        &format!("{name}, one call, the operation"),
        one,
        original,
        copy,
    );
    row(
        "the same by `format_sheet`, which makes the sheet image",
        built,
        original,
        copy,
    );
    row(
        "the same in thirty calls of the operation",
        thirty,
        original,
        copy,
    );
    row(
        "the same in thirty calls of `format_in`",
        thirty_in,
        original,
        copy,
    );
}

fn message<'a>((id, given): &'a (String, Vec<(String, harness::case::Value)>)) -> Message<'a> {
    let args = convert::arguments(given);
    let image = args.image().expect("they fit");
    Message { id, args, image }
}

fn sheet(messages: &[Message]) -> Sheet {
    let mut sheet = Sheet::new();
    for m in messages {
        sheet.push(m.id, None, Some(&m.args)).expect("it fits");
    }
    sheet
}

/// The text of the sheet, which has no errors.
fn in_one_call(bundle: &FluentBundle, sheet: &Sheet) -> String {
    let mut buffers = Buffers::with_lengths(TEXT, ROOM, ROOM);
    let figures = bundle.format_sheet_in(&mut buffers, sheet);
    let figures = figures.expect("formatted");
    assert_eq!(figures.errors, 0);
    buffers.text(figures).into_owned()
}

/// The texts of the original, joined; they have no errors.
fn joined(original: &RustBundle, theirs: &[Theirs]) -> String {
    theirs
        .iter()
        .map(|one| format_theirs(original, one))
        .collect()
}

/// The original's way from an id to a text.
pub fn format_theirs<'b>(original: &'b RustBundle, (id, args): &Theirs) -> Cow<'b, str> {
    let message = original.get_message(id).expect("it is there");
    let pattern = message.value().expect("it has a value");
    let mut errors = vec![];
    let text = original.format_pattern(pattern, Some(args), &mut errors);
    assert!(errors.is_empty());
    text
}
