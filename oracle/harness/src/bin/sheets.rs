//! Writes the sheets' images into the file that embeds them, and into the one
//! that the proofs have: `sheets ROOT`.
#![forbid(unsafe_code)]

use harness::sheets::{embedded, proved, EMBEDDED, PROVED};
use std::path::Path;

fn main() {
    let words: Vec<String> = std::env::args().skip(1).collect();
    let [root] = words.as_slice() else {
        eprintln!("usage: sheets ROOT");
        std::process::exit(2);
    };
    let root = Path::new(root);
    for (file, text) in [(EMBEDDED, embedded(root)), (PROVED, proved(root))] {
        std::fs::write(root.join(file), &text).expect("write the file");
        println!("{file}: {} bytes", text.len());
    }
}
