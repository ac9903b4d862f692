//! A separate, small writing-down of document 01: numbers, the layouts, the
//! additions and formatting; of document 02's sheets, of its isolation marks, of its
//! order of arguments, of its numbers without a last dot and of its plural table. It
//! shares nothing with the Rust but the tests. It reads escapes in a way of its own.

pub mod arguments;
pub mod effects;
pub mod errors;
pub mod escapes;
pub mod lookup;
pub mod marks;
pub mod number;
pub mod operations;
pub mod plural_table;
pub mod premises;
pub mod reader;
pub mod resolve;
pub mod sheet;
mod value;
pub mod workspace;
