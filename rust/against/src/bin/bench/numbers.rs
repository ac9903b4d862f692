//! A message of twenty numbers: with no minimum of fraction digits, with 0, and with 2.

use crate::one;
use crate::timed::head;
use against::numbers::{self, COUNT, MINIMUMS};

/// Times all three.
pub fn table() {
    println!("\nA message of {COUNT} numbers, each a call of NUMBER.\n");
    head();
    for minimum in MINIMUMS {
        let name = match minimum {
            None => "no minimum of fraction digits".into(),
            Some(digits) => format!("a minimum of {digits}"),
        };
        one::rows(&name, &numbers::printed(minimum), 0);
    }
}
