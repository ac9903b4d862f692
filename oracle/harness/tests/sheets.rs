//! The sheets of `sheets/*.ftl`: program and command embed them as they are, and
//! the Rust, message by message, prints what the program prints in one call.
#![forbid(unsafe_code)]

use harness::case::Case;
use harness::sheets::{
    arguments, bundle, embedded, proved, sheet, EMBEDDED, LANGUAGES, PROVED, USUAL,
};
use harness::{expected, expected_sheet, large_stack};
use std::path::Path;

fn root() -> &'static Path {
    Path::new(concat!(env!("CARGO_MANIFEST_DIR"), "/../.."))
}

/// The text of the sheet of a sighting, and the count of its errors; the Rust and
/// the model agree on each of its messages.
fn printed(locale: usize, fields: &[(&str, &str)]) -> (String, usize) {
    let sheet = sheet(bundle(root(), locale), fields);
    let e = expected_sheet(&sheet).unwrap_or_else(|d| panic!("{}: {d}", LANGUAGES[locale]));
    assert!(e.from_rust);
    let done = e.answer.expect("it finishes");
    let text = String::from_utf8(done.text).expect("it is text");
    (text, done.figures.errors)
}

/// The text of a message, and the count of its errors; the Rust and the model
/// agree on it.
fn said(locale: usize, message: &str, fields: &[(&str, &str)]) -> (String, usize) {
    let case = Case {
        bundle: bundle(root(), locale),
        message: message.into(),
        attribute: None,
        arguments: arguments(fields),
    };
    let e = expected(&case).unwrap_or_else(|d| panic!("{} {message}: {d}", LANGUAGES[locale]));
    let done = e.answer.expect("it finishes");
    let text = String::from_utf8(done.text).expect("it is text");
    (text, done.errors)
}

#[test]
fn the_program_embeds_the_sheets() {
    let committed = std::fs::read_to_string(root().join(EMBEDDED)).expect("it is there");
    assert!(committed == embedded(root()), "run tools/sheets");
}

#[test]
fn the_proofs_have_the_sheets() {
    let committed = std::fs::read_to_string(root().join(PROVED)).expect("it is there");
    assert!(committed == proved(root()), "run tools/sheets");
}

#[test]
fn the_program_prints_what_the_rust_prints() {
    large_stack(|| {
        let sheets = (0..4).map(|locale| {
            let (text, errors) = printed(locale, &USUAL);
            assert_eq!(errors, 0, "{text}");
            text + "\n"
        });
        let page = sheets.collect::<Vec<String>>().join("\n");
        let stdout = root().join("crates/sheet/stdout");
        assert_eq!(page, std::fs::read_to_string(stdout).expect("it is there"));
    });
}

/// A title, and three sentences that are set in by two spaces.
#[test]
fn a_sheet_is_its_lines() {
    large_stack(|| {
        for locale in 0..4 {
            for missing in 0..6 {
                let mut fields = USUAL.to_vec();
                fields.remove(missing);
                let messages = ["sheet", "seen", "away", "who"];
                let lines = messages.map(|message| said(locale, message, &fields));
                let errors = lines.iter().map(|(_, errors)| errors).sum();
                let text = lines.map(|(text, _)| text).join("\n  ");
                assert_eq!(printed(locale, &fields), (text, errors));
            }
        }
    });
}

#[test]
fn every_count_and_every_missing_field() {
    large_stack(|| {
        for locale in 0..4 {
            for count in (0..=30).chain([100, 101, 111, 1_000_000]) {
                for calves in ["0", "1", "2", "5"] {
                    let count = count.to_string();
                    let mut fields = USUAL;
                    fields[1].1 = &count;
                    fields[2].1 = calves;
                    let (text, errors) = said(locale, "report", &fields);
                    assert_eq!(errors, 0, "{text}");
                    for missing in 0..6 {
                        let mut rest = fields.to_vec();
                        rest.remove(missing);
                        said(locale, "report", &rest);
                    }
                }
            }
        }
    });
}
