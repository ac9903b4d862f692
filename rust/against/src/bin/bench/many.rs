//! A call with many variables among many arguments: what looking each of them up
//! costs.

use crate::one;
use crate::timed::head;
use against::convert;
use against::many::{self, Size};

/// Times three sizes of it.
pub fn table() {
    println!("\nA message with one call of NUMBER, which has many variables, each another of many arguments.\n");
    head();
    for size in many::sizes() {
        let printed = many::printed(size);
        let store = printed.made().store().len();
        let arguments = convert::arguments(&printed.messages[0].1);
        let image = arguments.image().expect("they fit").len();
        one::rows(&named(size, store, image), &printed, 0);
    }
}

/// A size, with the bytes of its store and of its arguments image.
fn named(size: Size, store: usize, image: usize) -> String {
    let Size {
        variables,
        arguments,
    } = size;
    format!("{variables} variables (a store of {store} bytes) among {arguments} arguments ({image} bytes)")
}
