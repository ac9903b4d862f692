//! A message whose string literals are full of escapes, and the same text without them.

use crate::one;
use crate::timed::microseconds;
use against::literals::{Literals, ALL};
use against::sheet::Printed;

/// Times all of them.
pub fn table() {
    let escapes = Literals::Upper.escapes();
    println!(
        "\nA message of string literals with {escapes} escapes, or of the same text without one.\n"
    );
    println!("| | ours | of which the store's check | original | ratio |");
    println!("|---|---|---|---|---|");
    for literals in ALL {
        row(&literals.to_string(), &literals.printed());
    }
    row("no escape", &Literals::Upper.in_bytes());
}

fn row(name: &str, printed: &Printed) {
    let [ours, check, theirs] = one::operation(printed, 0);
    println!(
        "| {name} | {} | {} | {} | {:.2} |",
        microseconds(ours),
        microseconds(check),
        microseconds(theirs),
        ours / theirs
    );
}
