//! Runs the command lines of `stored/*.txt` and compares status, standard
//! output, standard error and the files that are written.
//!
//! Most answers are those of an earlier program, `sheet`, whose text was proved
//! to be made as a definition says. Its messages began with its own name; here
//! `sheet: ` at the start of a line of standard error stands for `weszlagyo: `.
//! It formatted each message of a sheet by itself. Since a sheet is one call,
//! the same errors stand together below it, the figures are its own, and the
//! stores have the message `line`; `sheets.txt` is of that time. `workspace.txt`
//! came with `--workspace`, `marks.txt` with what is said of isolation marks,
//! `arguments.txt` with their order, since which saved images have other bytes, and
//! `fractions.txt` with numbers that end in a digit.
#![forbid(unsafe_code)]

mod inputs;
mod stored;

use std::ffi::OsStr;
use std::os::unix::ffi::OsStrExt;
use std::path::{Path, PathBuf};
use std::process::{Command, Output};
use stored::Stored;

/// A new folder with the input files.
fn folder(name: &str) -> PathBuf {
    let folder = Path::new(env!("CARGO_TARGET_TMPDIR")).join(name);
    let _ = std::fs::remove_dir_all(&folder);
    std::fs::create_dir_all(&folder).expect("a folder");
    inputs::write(&folder);
    folder
}

fn run<'a>(folder: &Path, words: impl IntoIterator<Item = &'a [u8]>) -> Output {
    Command::new(env!("CARGO_BIN_EXE_weszlagyo"))
        .args(words.into_iter().map(OsStr::from_bytes))
        .current_dir(folder)
        .output()
        .expect("it runs")
}

/// The files that a run may have written; each is removed.
fn take_saved(folder: &Path) -> Vec<(String, Vec<u8>)> {
    let take = |name: &&str| {
        let path = folder.join(name);
        let bytes = std::fs::read(&path).ok()?;
        std::fs::remove_file(&path).ok()?;
        Some((name.to_string(), bytes))
    };
    ["saved.store", "saved.arguments"]
        .iter()
        .filter_map(take)
        .collect()
}

/// With the command's name in the place of the earlier program's.
fn renamed(lines: &[u8]) -> Vec<u8> {
    lines
        .split_inclusive(|b| *b == b'\n')
        .flat_map(|line| match line.strip_prefix(b"sheet: ") {
            Some(rest) => [b"weszlagyo: ", rest].concat(),
            None => line.to_vec(),
        })
        .collect()
}

/// What differs from what is stored, in words.
fn differences(stored: &Stored, output: &Output, saved: &[(String, Vec<u8>)]) -> Vec<String> {
    let mut out = Vec::new();
    if output.status.code() != Some(stored.status) {
        out.push(format!("{}, not {}", output.status, stored.status));
    }
    for (name, now, then) in [
        ("standard output", &output.stdout, &stored.out),
        ("standard error", &output.stderr, &renamed(&stored.err)),
    ] {
        if now != then {
            let (now, then) = (String::from_utf8_lossy(now), String::from_utf8_lossy(then));
            out.push(format!("{name} is\n{now}and not\n{then}"));
        }
    }
    let saved: Vec<_> = saved
        .iter()
        .map(|(name, bytes)| (name.clone(), bytes.len(), stored::sum(bytes)))
        .collect();
    if saved != stored.saved {
        out.push(format!("saved {saved:x?}, not {:x?}", stored.saved));
    }
    out
}

/// Runs all command lines behind these words.
fn compare(name: &str, before: &[&[u8]], is_run: impl Fn(&Stored) -> bool) -> usize {
    let folder = folder(name);
    let all: Vec<Stored> = stored::all().into_iter().filter(is_run).collect();
    let mut wrong = Vec::new();
    for stored in &all {
        let words = stored.words.iter().map(Vec::as_slice);
        let output = run(&folder, before.iter().copied().chain(words));
        let found = differences(stored, &output, &take_saved(&folder));
        wrong.extend(found.iter().map(|what| format!("{}: {what}", stored.place)));
    }
    assert!(wrong.is_empty(), "{}", wrong.join("\n"));
    all.len()
}

#[test]
fn every_stored_command_line() {
    let count = compare("named", &[b"sheet"], |_| true);
    assert!(count >= 467, "{count} command lines are stored");
}

/// `sheet` can be left out. A first word without a `-` is then a command's
/// name, and `--help` asks for the commands.
#[test]
fn sheet_is_the_command_where_none_is_named() {
    compare("unnamed", &[], |stored| {
        stored
            .words
            .first()
            .is_none_or(|word| word.starts_with(b"-") && word != b"--help")
    });
}

/// What `--save-arguments` writes is accepted by `--arguments`, and prints the
/// same.
#[test]
fn saved_arguments_print_what_the_fields_print() {
    let folder = folder("saved");
    for fields in [
        vec![],
        vec!["--species", "minke", "--count", "21"],
        vec!["--distance", "12.50", "--calves", "0.0", "--leg", "-0.00"],
        vec!["--observer", "", "--count", "1000000.000"],
        vec!["--no", "species", "--no", "leg"],
    ] {
        let words = fields.iter().map(|word| word.as_bytes());
        let save: [&[u8]; 3] = [b"--figures", b"--save-arguments", b"saved.arguments"];
        let made = run(&folder, words.chain(save));
        let read: [&[u8]; 3] = [b"--figures", b"--arguments", b"saved.arguments"];
        let read = run(&folder, read);
        assert_eq!(made.status.code(), Some(0), "{fields:?}");
        assert_eq!(read, made, "{fields:?}");
    }
}

/// The README makes two of the stores, with `printf`.
#[test]
fn the_stores_of_the_readme() {
    let readme = include_str!("../../../../README.md");
    let escaped = |byte: u8| match byte {
        b' ' | b'A'..=b'Z' | b'a'..=b'z' => char::from(byte).to_string(),
        _ => format!("\\{byte:o}"),
    };
    for (name, bytes) in [
        ("kinds", inputs::kinds()),
        ("distances", inputs::distances()),
    ] {
        let readme = readme.replace(&format!("' >/tmp/{name}.store\n    printf '"), "");
        let bytes: String = bytes.into_iter().map(escaped).collect();
        let made = format!("printf '{bytes}' >>/tmp/{name}.store");
        assert!(readme.contains(&made), "{made}");
    }
}

#[test]
fn the_commands() {
    let folder = folder("commands");
    let help = run(&folder, [b"--help".as_slice()]);
    let text = String::from_utf8(help.stdout).expect("it is text");
    assert!(text.starts_with("usage: weszlagyo [COMMAND] [OPTIONS]\n"));
    assert!(text.contains("\n  sheet "));
    assert!(help.stderr.is_empty() && help.status.code() == Some(0));

    let unknown = run(&folder, [b"sheets".as_slice(), b"--count"]);
    let said = String::from_utf8(unknown.stderr).expect("it is text");
    assert_eq!(
        said,
        "weszlagyo: there is no command sheets; --help lists them\n"
    );
    assert!(unknown.stdout.is_empty() && unknown.status.code() == Some(1));
}
