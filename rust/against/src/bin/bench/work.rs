//! A message with three texts in the workspace: with a long workspace, and with
//! one of exactly its figure.

use crate::check_of;
use crate::sheets::{format_theirs, Theirs};
use crate::timed::{head, race, row, Timed};
use against::{convert, workspace};
use harness::rust;
use std::hint::black_box;
use weszlagyo::{operations, Buffers};

/// Room for the text and the list.
const ROOM: usize = 256;

/// Times it.
pub fn table() {
    let printed = workspace::printed();
    let (id, given) = &printed.messages[0];
    let figure = workspace::figure(&printed);
    let original = rust::bundle(&printed.bundle);
    let theirs: Theirs = (id, rust::arguments(given));
    let bundle = printed.made();
    let store = bundle.store();
    let args = convert::arguments(given);
    let image = args.image().expect("they fit");
    let ours = bundle.format(id, None, Some(&args)).expect("formatted");
    assert_eq!(ours.text, format_theirs(&original, &theirs));
    println!(
        "\nA store of {} bytes: a message with three texts in the workspace, which needs {figure} bytes of it.\n",
        store.len()
    );
    head();

    let mut target = vec![0; store.len()];
    let mut buffers = Buffers::fixed(ROOM, ROOM, figure);
    let best = race([
        timed(store, id, &image, workspace::LONG),
        timed(store, id, &image, figure),
        Timed::new(|| {
            let answer = bundle.format_in(&mut buffers, id, None, Some(&args));
            black_box(answer.expect("formatted"));
        }),
        Timed::new(|| check_of(store)),
        Timed::new(|| {
            black_box(format_theirs(&original, &theirs).len());
        }),
        Timed::new(|| black_box(&mut target).copy_from_slice(black_box(store))),
    ]);
    rows(best, figure);
}

/// The operation, with a workspace of that length.
fn timed<'a>(store: &'a [u8], id: &'a str, image: &'a [u8], work: usize) -> Timed<'a> {
    let (mut text, mut list, mut work) = ([0; ROOM], [0; ROOM], vec![0; work]);
    Timed::new(move || {
        let (text, list, work) = (&mut text, &mut list, &mut work);
        let answer = operations::format(store, id.as_bytes(), None, image, text, list, work);
        black_box(answer.expect("formatted"));
    })
}

fn rows([long, exact, fixed, check, theirs, copy]: [f64; 6], figure: usize) {
    let exactly = format!("the same, a workspace of {figure} bytes");
    for (name, ours) in [
        ("one message, a workspace of 65,536 bytes", long),
        (&exactly, exact),
        ("the same, `format_in` with fixed buffers", fixed),
        ("of which the store's check", check),
    ] {
        row(name, ours, theirs, copy);
    }
}
