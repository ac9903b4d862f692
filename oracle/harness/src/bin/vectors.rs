//! Writes the vector files under a root: `vectors OUT_ROOT [--seed N] [--cases N]`.
#![forbid(unsafe_code)]

use harness::vectors::{self, File, CASES};
use std::path::Path;

fn main() {
    let mut root = None;
    let (mut seed, mut cases) = (1, CASES);
    let mut words = std::env::args().skip(1);
    while let Some(word) = words.next() {
        let number = |value: Option<String>| value.and_then(|v| v.parse().ok());
        match (word.as_str(), &root) {
            ("--seed", _) => seed = number(words.next()).unwrap_or_else(|| usage()),
            ("--cases", _) => cases = number(words.next()).unwrap_or_else(|| usage()) as usize,
            (folder, None) if !folder.starts_with('-') => root = Some(word),
            _ => usage(),
        }
    }
    let root = root.unwrap_or_else(|| usage());
    harness::large_stack(move || {
        let root = Path::new(&root);
        let write = |name: &str, file: File| write(root, name, file);
        write(
            "replay/data/numbers.vec",
            vectors::numbers::make(seed, cases),
        );
        write(
            "replay/data/categories.vec",
            vectors::categories::make(seed, cases),
        );
        write(
            "replay/data/escapes.vec",
            vectors::escapes::make(seed, cases),
        );
        write(
            "replay_formats/data/sentences.vec",
            vectors::formats::sentences_file(),
        );
        write(
            "replay_formats/data/formats.vec",
            vectors::formats::make(seed, cases),
        );
        write("replay/data/images.vec", vectors::images::make(seed, cases));
        write(
            "replay/data/additions.vec",
            vectors::additions::make(seed, cases),
        );
        write(
            "replay_formats/data/sheets.vec",
            vectors::sheets::make(seed, cases),
        );
        let (figures, additions) = vectors::figures::make(seed, cases);
        write("replay_formats/data/figures.vec", figures);
        write("replay/data/figure_additions.vec", additions);
        write(
            "replay_formats/data/nesting.vec",
            vectors::nesting::make(seed, cases),
        );
        write(
            "replay_formats/data/arguments.vec",
            vectors::arguments::make(seed, cases),
        );
        write(
            "replay_formats/data/fractions.vec",
            vectors::fractions::make(seed, cases),
        );
    });
}

fn write(root: &Path, name: &str, file: File) {
    let path = root.join("crates").join(name);
    let (count, longest) = (file.count(), file.longest());
    let operations = file.operations().iter();
    let operations: Vec<String> = operations.map(|(o, n)| format!("{n} of {o}")).collect();
    let operations = operations.join(", ");
    let bytes = file.bytes();
    std::fs::create_dir_all(path.parent().expect("a folder")).expect("make the folder");
    std::fs::write(&path, &bytes).expect("write the file");
    let length = bytes.len();
    println!("crates/{name}: {count} cases, {length} bytes, longest case {longest}; {operations}");
}

fn usage() -> ! {
    eprintln!("usage: vectors OUT_ROOT [--seed N] [--cases N]");
    std::process::exit(2);
}
