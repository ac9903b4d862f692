//! fluent-bundle 0.16.0 without any replacement: all modules are the published
//! files, compiled from docs/src as they are. Only tests use it, to hold
//! `fluent-bundle`, which takes a final dot off the text of a number, to it.
//! `rustfmt::skip` keeps `cargo fmt` from rewriting the documents.
#![forbid(unsafe_code)]
// What the published files do is not ours to change.
#![allow(warnings)]

include!("../../fluent-bundle/src/published.rs");
#[rustfmt::skip]
#[path = "../../../docs/src/src/types/mod.rs"]
pub mod types;
