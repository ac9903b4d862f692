//! What the replaying programs are to print, counted over the committed vectors: a
//! count for each operation and way, and nothing that differs.

use super::fields::{cases, Fields};
use std::collections::BTreeMap;

fn printed(program: &str) -> String {
    let path = format!(
        "{}/../../crates/{program}/stdout",
        env!("CARGO_MANIFEST_DIR")
    );
    std::fs::read_to_string(&path).unwrap_or_else(|e| panic!("{path}: {e}"))
}

/// A case of formattings or sheets, as far as it is counted.
enum Case {
    Refused,
    /// How long its text is, and its workspace figure.
    Finished {
        text: usize,
        figure: usize,
    },
}

fn read(whole: &[u8]) -> Case {
    let mut f = Fields(whole);
    let operation = f.u8();
    f.blob();
    match operation {
        40 | 41 => {
            f.str();
            f.flag();
            f.str();
            f.blob();
        }
        50 => {
            f.blob();
        }
        _ => panic!("operation {operation}"),
    }
    if operation != 40 {
        f.take(12);
    }
    if f.u8() > 0 {
        return Case::Refused;
    }
    let (text, _) = (f.blob().len(), f.blob());
    // error count, placeables begun, unfound
    f.take(if operation == 50 { 12 } else { 7 });
    let figure = f.length();
    Case::Finished { text, figure }
}

/// The block of a file, with what its first line says of the cases.
fn block(file: &str, what: &str) -> String {
    let (mut finished, mut with_text, mut with_workspace) = (0, 0, 0);
    let all = cases(&format!("replay_formats/data/{file}"));
    for case in &all {
        if let Case::Finished { text, figure } = read(case) {
            finished += 1;
            with_text += usize::from(text > 0);
            with_workspace += usize::from(figure > 0);
        }
    }
    let lines = [
        format!("{file}:"),
        format!("{} {what}", all.len()),
        format!("{finished} with ample buffers"),
        format!("{finished} with buffers that just fit"),
        format!("{with_text} with a text one byte short"),
        format!("{finished} with a list one byte short"),
        format!("{with_workspace} with a workspace one byte short"),
        format!("{finished} with text and list as lent, a workspace of the figure"),
        format!("{with_workspace} and with one byte less of it"),
        format!("{} refused", all.len() - finished),
        "0 unknown".into(),
        "0 differ".into(),
    ];
    lines.join("\n") + "\n"
}

#[test]
fn formattings_and_sheets() {
    let by = |what: &str| format!("formattings and sheets by {what}");
    let blocks = [
        block("formats.vec", "formattings"),
        block("sentences.vec", "formattings"),
        block("sheets.vec", "sheets"),
        block("figures.vec", &by("their figures")),
        block("nesting.vec", &by("their isolation marks")),
        block("arguments.vec", &by("the order of their arguments")),
        block("fractions.vec", &by("their fraction digits")),
        "0 differ at the longest arguments image\n".into(),
        "5 sheets too long for a vector, 0 differ\n".into(),
    ];
    assert_eq!(printed("replay_formats"), blocks.concat());
}

#[test]
fn numbers_images_and_additions() {
    let mut counts: BTreeMap<u8, usize> = BTreeMap::new();
    let (mut damaged, mut damaged_sheets) = (0, 0);
    for file in ["numbers", "images", "additions", "figure_additions"] {
        for case in cases(&format!("replay/data/{file}.vec")) {
            let mut f = Fields(&case);
            let operation = f.u8();
            *counts.entry(operation).or_default() += 1;
            if operation == 25 {
                let (kind, base) = (f.u8(), f.blob());
                // 255 other values of each byte, and a length for each
                match kind {
                    18 => damaged_sheets += 256 * base.len(),
                    _ => damaged += 256 * base.len(),
                }
            }
        }
    }
    let by_table = cases("replay/data/categories.vec").len();
    let line = |operation: u8, what: &str| format!("{} {what}, 0 differ", counts[&operation]);
    let lines = [
        line(1, "literals"),
        line(2, "number texts"),
        line(3, "categories"),
        line(4, "calls of NUMBER"),
        line(5, "equalities"),
        line(6, "category words"),
        format!("{by_table} categories by the table, 0 differ"),
        line(20, "stores"),
        line(21, "resource images"),
        line(22, "arguments images"),
        line(23, "string literals"),
        line(24, "arguments looked for"),
        format!("{damaged} damaged images, 0 differ"),
        line(51, "sheet images"),
        format!("{damaged_sheets} damaged sheet images, 0 differ"),
        line(30, "new bundles"),
        line(31, "resource additions"),
        line(32, "function additions"),
        "0 unknown, 0 differ".into(),
        "0 differ at the limit of a store".into(),
    ];
    assert_eq!(printed("replay"), lines.join("\n") + "\n");
}
