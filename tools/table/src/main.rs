//! Makes the page of all sentences from what `weszlagyo sheet` prints:
//! `table OUT COMMAND`, where COMMAND is the command's path.
#![forbid(unsafe_code)]

mod ask;
mod differ;
mod page;

use ask::{Answer, Sighting, Weszlagyo};
use std::process::exit;

/// A table of a language: its rows' heads, its columns' heads, and the cells.
pub struct Table {
    pub anchor: String,
    pub title: String,
    pub rows_are: &'static str,
    pub columns: Vec<String>,
    pub rows: Vec<Row>,
}

pub struct Row {
    pub head: String,
    /// The first row after a gap in the numbers.
    pub after_gap: bool,
    /// For each column the four languages' answers.
    pub cells: Vec<[Answer; 4]>,
}

const FIELDS: [&str; 6] = ["species", "count", "calves", "distance", "leg", "observer"];

const SPECIES: [&str; 5] = ["porpoise", "minke", "humpback", "dolphin", "seal"];

/// The counts: 0 to 30, and where a large number's last digits matter.
fn counts() -> Vec<u64> {
    let large = [
        31,
        32,
        35,
        41,
        100,
        101,
        102,
        103,
        106,
        111,
        112,
        121,
        1000,
        1001,
        1_000_000,
        999_999_999_999_999,
    ];
    (0..=30).chain(large).collect()
}

fn is_after_gap(numbers: &[u64], i: usize) -> bool {
    i > 0 && numbers[i] != numbers[i - 1] + 1
}

/// Every count, with calves and without, one field missing or none.
fn by_count(command: &Weszlagyo, missing: Option<&'static str>) -> Table {
    let numbers = match missing {
        Some("count") => vec![3],
        _ => counts(),
    };
    let columns: &[(&str, u64)] = match missing {
        Some("calves") => &[("calves missing", 0)],
        _ => &[("2 calves", 2), ("no calves", 0)],
    };
    let row = |i: usize| Row {
        head: match missing {
            Some("count") => "missing".into(),
            _ => numbers[i].to_string(),
        },
        after_gap: is_after_gap(&numbers, i),
        cells: columns
            .iter()
            .map(|&(_, calves)| {
                command.ask(&Sighting {
                    count: numbers[i],
                    calves,
                    missing,
                    ..Sighting::USUAL
                })
            })
            .collect(),
    };
    Table {
        anchor: missing.map_or("all".into(), |m| format!("no-{m}")),
        title: missing.map_or("Every field given".into(), |m| format!("Without {m}")),
        rows_are: "count",
        columns: columns.iter().map(|c| c.0.into()).collect(),
        rows: (0..numbers.len()).map(row).collect(),
    }
}

/// Every species, at the counts that have forms of their own.
fn by_species(command: &Weszlagyo) -> Table {
    let numbers = [0, 1, 2, 3, 5, 6, 11, 21, 22, 25];
    let row = |i: usize| Row {
        head: numbers[i].to_string(),
        after_gap: is_after_gap(&numbers, i),
        cells: SPECIES
            .iter()
            .map(|&species| {
                command.ask(&Sighting {
                    species,
                    count: numbers[i],
                    message: "seen",
                    ..Sighting::USUAL
                })
            })
            .collect(),
    };
    Table {
        anchor: "species".into(),
        title: "Every species".into(),
        rows_are: "count",
        columns: SPECIES.iter().map(|&s| s.into()).collect(),
        rows: (0..numbers.len()).map(row).collect(),
    }
}

/// The forms of the other numbers: calves, distance and leg.
fn by_number(command: &Weszlagyo) -> Table {
    let numbers: Vec<u64> = (0..=30).chain([31, 42, 101, 111, 112]).collect();
    let row = |i: usize| {
        let n = numbers[i];
        let of = |calves, distance, leg, message| {
            command.ask(&Sighting {
                count: 120,
                calves,
                distance,
                leg,
                message,
                ..Sighting::USUAL
            })
        };
        Row {
            head: n.to_string(),
            after_gap: is_after_gap(&numbers, i),
            cells: vec![
                of(n, 400, 7, "seen"),
                of(1, n, 7, "away"),
                of(1, 400, n, "seen"),
            ],
        }
    };
    Table {
        anchor: "numbers".into(),
        title: "Every other number".into(),
        rows_are: "number",
        columns: vec!["as calves".into(), "as distance".into(), "as leg".into()],
        rows: (0..numbers.len()).map(row).collect(),
    }
}

fn main() {
    let words: Vec<String> = std::env::args().skip(1).collect();
    let [out, path] = words.as_slice() else {
        eprintln!("usage: table OUT COMMAND");
        exit(2);
    };
    let command = Weszlagyo { path: path.clone() };
    let mut tables = Vec::new();
    let mut add = |name: &str, table: Table| {
        eprintln!("  {name}");
        tables.push(table);
    };
    add("every field given", by_count(&command, None));
    for field in FIELDS {
        add(&format!("without {field}"), by_count(&command, Some(field)));
    }
    add("every species", by_species(&command));
    add("every other number", by_number(&command));
    let page = page::page(&tables);
    if let Err(e) = std::fs::write(out, &page) {
        eprintln!("table: {out} can't be written: {e}");
        exit(1);
    }
    let cells: usize = tables
        .iter()
        .flat_map(|t| &t.rows)
        .map(|r| r.cells.len())
        .sum();
    println!("{out}: {} sentences, {} bytes", cells * 4, page.len());
}
