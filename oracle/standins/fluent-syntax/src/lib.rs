//! Stand-in for fluent-syntax: the tree's shapes, the reading of escapes after
//! document 01, and a reader of a plain notation in the parser's place.
#![forbid(unsafe_code)]

pub mod ast;
pub mod notation;
pub mod parser;
pub mod unicode;
