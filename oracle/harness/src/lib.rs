//! The oracle's workings: cases, the real Rust, the model, and vectors.
//!
//! `generator(seed)` gives a formatting case, `expected(&case)` its bytes and
//! its answers: text, errors, counts and refusals, for any buffer lengths.
#![forbid(unsafe_code)]

pub mod boundaries;
pub mod bytes;
pub mod case;
pub mod cldr;
pub mod encode;
pub mod escapes;
mod expected;
pub mod figures;
pub mod fractions;
pub mod ftl;
mod generator;
pub mod model;
pub mod nesting;
pub mod order;
pub mod plain;
pub mod plurals;
pub mod points;
pub mod random;
pub mod rust;
pub mod sentences;
pub mod sheet_points;
pub mod sheets;
pub mod vectors;

pub use expected::{expected, expected_sheet, Expected, ExpectedSheet};
pub use generator::{
    checked, checked_sheet, escapes, escapes_sheet, fractions, fractions_sheet, generator, listed,
    listed_sheet, marked, marked_sheet, plurals, plurals_sheet, sheet_generator, unmarked,
    unmarked_sheet, Listed, ListedSheet, Listing, Maker, Place, LISTINGS, PLACES,
};

/// Runs something on a thread whose stack is large enough for 100 references
/// inside each other, each nested to depth 32.
pub fn large_stack<T: Send + 'static>(f: impl FnOnce() -> T + Send + 'static) -> T {
    std::thread::Builder::new()
        .stack_size(256 << 20)
        .spawn(f)
        .expect("a thread")
        .join()
        .expect("it ends well")
}
