//! The crate root of fluent-bundle 0.16.0, which is not among the source
//! documents. All modules but `types` are the published files, compiled from
//! docs/src as they are. `types` is a copy of the published folder that build.rs
//! makes, byte for byte but for one place in `FluentNumber::as_string`: a final dot
//! is taken off the text of a number (document 02's Card 3). The crate beside this
//! one, `fluent-bundle-original`, has no replacement.
#![forbid(unsafe_code)]
// What the published files do is not ours to change.
#![allow(warnings)]

include!("published.rs");
include!(concat!(env!("OUT_DIR"), "/copied.rs"));
