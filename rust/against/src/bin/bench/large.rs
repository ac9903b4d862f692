//! What a call costs on a store of nearly 1 MiB before it does anything. The
//! original Rust has no such check; a copy and the standard library's own check
//! of UTF-8 stand beside it.

use crate::check_of;
use crate::timed::{microseconds, race, Timed};
use std::hint::black_box;
use weszlagyo::{FluentBundle, FluentResource};

const WORDS: &str = "A minke whale was seen off the bow; кит был виден у носа. ";

/// A store that has no room for one more resource.
fn full_store() -> Vec<u8> {
    let mut bundle = FluentBundle::default();
    let mut part = 0;
    loop {
        let mut builder = FluentResource::builder();
        for n in 0..60 {
            let value = weszlagyo::syntax::Pattern::new()
                .text(WORDS.repeat(14))
                .place(weszlagyo::syntax::variable("n"));
            builder = builder.message(format!("m{part}-{n}"), value);
        }
        let resource = builder.build().expect("well-formed");
        if bundle.add_resource_overriding(resource).is_err() {
            return bundle.store().to_vec();
        }
        part += 1;
    }
}

/// Times its check.
pub fn table() {
    let store = full_store();
    let mut target = vec![0; store.len()];
    let text = WORDS.repeat(store.len() / WORDS.len());
    let [check, copy, utf8] = race([
        Timed::new(|| check_of(&store)),
        Timed::new(|| black_box(&mut target).copy_from_slice(black_box(&store))),
        Timed::new(|| {
            black_box(std::str::from_utf8(black_box(text.as_bytes())).is_ok());
        }),
    ]);
    let speed = |bytes: usize, seconds: f64| format!("{:.0} MB/s", bytes as f64 / seconds / 1e6);
    println!(
        "\nA store of {} bytes, more than a third of its letters Cyrillic:\n",
        store.len()
    );
    println!("| | time | speed | of the copy |");
    println!("|---|---|---|---|");
    for (name, seconds, bytes) in [
        ("its check, in every call", check, store.len()),
        ("a copy of its bytes", copy, store.len()),
        ("`str::from_utf8` of as much text", utf8, text.len()),
    ] {
        println!(
            "| {name} | {} | {} | {:.1} |",
            microseconds(seconds),
            speed(bytes, seconds),
            seconds / copy
        );
    }
}
