//! A message of twenty choices by the plural category of a number.

use crate::one;
use crate::timed::microseconds;
use against::choices::{ALL, COUNT};

/// Times all of them.
pub fn table() {
    println!("\nA message of {COUNT} choices, each by the plural category of another number.\n");
    println!("| | ours | of which the store's check | original | ratio |");
    println!("|---|---|---|---|---|");
    for choices in ALL {
        let [ours, check, theirs] = one::operation(&choices.printed(), 0);
        println!(
            "| {choices} | {} | {} | {} | {:.2} |",
            microseconds(ours),
            microseconds(check),
            microseconds(theirs),
            ours / theirs
        );
    }
}
