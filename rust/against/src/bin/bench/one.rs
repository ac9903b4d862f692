//! One message: the operation, `format_in`, and the check of the store in them.

use crate::check_of;
use crate::sheets::{format_theirs, Theirs};
use crate::timed::{race, row, Timed};
use against::{convert, sheet};
use harness::rust::{self, RustBundle};
use std::hint::black_box;
use weszlagyo::{operations, Buffers, FluentArgs, FluentBundle};

/// Room for each of the buffers.
const ROOM: usize = 256;

/// A message at hand on both sides.
struct Both<'a> {
    original: RustBundle,
    theirs: Theirs<'a>,
    bundle: FluentBundle,
    id: &'a str,
    args: FluentArgs<'a>,
}

/// The message at that place of the printed ones, once its texts are compared.
fn both(printed: &sheet::Printed, at: usize) -> Both<'_> {
    let (id, given) = &printed.messages[at];
    let original = rust::bundle(&printed.bundle);
    let theirs: Theirs = (id, rust::arguments(given));
    let bundle = printed.made();
    let args = convert::arguments(given);
    let ours = bundle.format(id, None, Some(&args)).expect("formatted");
    assert_eq!(ours.text, format_theirs(&original, &theirs));
    Both {
        original,
        theirs,
        bundle,
        id,
        args,
    }
}

/// Times the operation on the message at that place, the store's check in it, and the
/// original.
pub fn operation(printed: &sheet::Printed, at: usize) -> [f64; 3] {
    let both = both(printed, at);
    let store = both.bundle.store();
    let image = both.args.image().expect("they fit");
    let (mut text, mut list, mut work) = ([0; 2 * ROOM], [0; ROOM], [0; ROOM]);
    race([
        Timed::new(|| {
            let (text, list, work) = (&mut text, &mut list, &mut work);
            let id = both.id.as_bytes();
            let answer = operations::format(store, id, None, &image, text, list, work);
            black_box(answer.expect("formatted"));
        }),
        Timed::new(|| check_of(store)),
        Timed::new(|| {
            black_box(format_theirs(&both.original, &both.theirs).len());
        }),
    ])
}

/// Times the message at that place of the printed ones.
pub fn rows(name: &str, printed: &sheet::Printed, at: usize) {
    let Both {
        original,
        theirs,
        bundle,
        id,
        args,
    } = both(printed, at);
    let store = bundle.store();
    let image = args.image().expect("they fit");
    let mut target = vec![0; store.len()];
    let mut buffers = Buffers::with_lengths(ROOM, ROOM, ROOM);
    let (mut text, mut list, mut work) = ([0; ROOM], [0; ROOM], [0; ROOM]);
    let [raw, crate_, check, theirs, copy] = race([
        Timed::new(|| {
            let (text, list, work) = (&mut text, &mut list, &mut work);
            let answer = operations::format(store, id.as_bytes(), None, &image, text, list, work);
            black_box(answer.expect("formatted"));
        }),
        Timed::new(|| {
            let answer = bundle.format_in(&mut buffers, id, None, Some(&args));
            black_box(answer.expect("formatted"));
        }),
        Timed::new(|| check_of(store)),
        Timed::new(|| {
            black_box(format_theirs(&original, &theirs).len());
        }),
        Timed::new(|| black_box(&mut target).copy_from_slice(black_box(store))),
    ]);
    row(&format!("{name}, the operation"), raw, theirs, copy);
    row("the same, `format_in`", crate_, theirs, copy);
    row("of which the store's check", check, theirs, copy);
}
