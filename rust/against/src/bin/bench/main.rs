//! Times the crate beside the original Rust on the same inputs, in one run, and
//! prints a table. docs/BENCHMARKS.md says what is inside each call.
#![forbid(unsafe_code)]

mod choices;
mod large;
mod literals;
mod many;
mod numbers;
mod one;
mod sheets;
mod timed;
mod work;

use against::{convert, sheet};
use harness::case::Item;
use harness::rust;
use std::hint::black_box;
use timed::{head, race, row, Timed, ROUND, ROUNDS};
use weszlagyo::{operations, FluentBundle, FluentResource, Refusal};

fn main() {
    let parts = sheet::parts();
    println!(
        "A store of {} bytes: 60 entries in 10 resources, and NUMBER. The best of {ROUNDS} rounds of about {} ms, ours and theirs and the copy in turns.\n",
        parts.made().store().len(),
        ROUND.as_millis()
    );
    head();
    one::rows("one message", &parts, 12);
    sheets::rows("a sheet of 30 messages", &parts);
    a_bundle_made(&parts);

    let sightings = sheet::sightings();
    println!(
        "\nA store of {} bytes: the sentences of sheets/en.ftl, and NUMBER. The four messages of the printed sheet over and over, each time of another sighting.\n",
        sightings.made().store().len()
    );
    head();
    sheets::rows("a sheet of 30 messages", &sightings);

    work::table();
    numbers::table();
    choices::table();
    literals::table();
    many::table();
    large::table();
}

/// Times a bundle with NUMBER and its resources.
fn a_bundle_made(printed: &sheet::Printed) {
    let trees = printed.bundle.items.iter().filter_map(|item| match item {
        Item::Plain(tree) | Item::Overriding(tree) => Some(tree),
        Item::Function(_) => None,
    });
    let their_resources: Vec<_> = trees.clone().map(rust::resource).collect();
    let resources: Vec<FluentResource> = trees
        .map(|tree| convert::resource(tree).expect("well-formed"))
        .collect();
    let store = made(&resources).store().to_vec();
    let mut target = vec![0; store.len()];
    let [ours, theirs, copy] = race([
        Timed::new(|| {
            black_box(made(&resources));
        }),
        Timed::new(|| {
            let mut bundle: fluent_bundle::FluentBundle<&fluent_bundle::FluentResource> =
                fluent_bundle::FluentBundle::default();
            bundle
                .add_function("NUMBER", fluent_bundle::builtins::NUMBER)
                .expect("it is new");
            for resource in &their_resources {
                bundle.add_resource(resource).expect("all are new");
            }
            black_box(&bundle);
        }),
        Timed::new(|| black_box(&mut target).copy_from_slice(black_box(&store))),
    ]);
    row("a bundle of 10 resources made", ours, theirs, copy);
}

/// A bundle with NUMBER and these resources.
fn made(resources: &[FluentResource]) -> FluentBundle {
    let mut bundle = FluentBundle::default();
    bundle.add_builtins().expect("it is new");
    for resource in resources {
        bundle.add_resource(resource).expect("all are new");
    }
    bundle
}

/// The check of a store alone: a formatting of an id that is none, which is
/// refused once the store is checked.
fn check_of(store: &[u8]) {
    let no_arguments = [0, 0, 0, 7, 1, 0, 0];
    let (text, list, work) = (&mut [], &mut [], &mut []);
    let answer = operations::format(store, b"", None, &no_arguments, text, list, work);
    assert_eq!(black_box(answer), Err(Refusal::NO_ID));
}
