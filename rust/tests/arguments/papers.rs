//! The images that the papers show are those that the crate writes.

use weszlagyo::{FluentArgs, FluentValue};

/// A byte as C has it: a character, or a number.
fn byte(written: &str) -> u8 {
    let inner = written
        .strip_prefix('\'')
        .and_then(|w| w.strip_suffix('\''));
    match (inner, written.strip_prefix("0x")) {
        (Some(character), _) => character.bytes().next().expect("a character"),
        (None, Some(digits)) => u8::from_str_radix(digits, 16).expect("a byte"),
        (None, None) => written.parse().expect("a byte"),
    }
}

/// The bytes of an array, without comments.
fn bytes(array: &str) -> Vec<u8> {
    let mut bare = String::new();
    for part in array.split("/*") {
        bare.push_str(part.split_once("*/").map_or(part, |(_, behind)| behind));
    }
    bare.split(',')
        .map(|written| byte(written.trim()))
        .collect()
}

#[test]
fn the_arguments_of_the_readme() {
    let readme = include_str!("../../../README.md");
    let (_, array) = readme.split_once("arguments[] = {").expect("an array");
    let (array, _) = array.split_once("};").expect("its end");
    let args = FluentArgs::from_iter([
        ("species", FluentValue::from("minke")),
        ("count", FluentValue::try_number("2.5")),
    ]);
    assert_eq!(Ok(bytes(array)), args.image());
}

#[test]
fn the_arguments_of_the_header() {
    let header = include_str!("../../../include/weszlagyo.h");
    let args = FluentArgs::from_iter([("n", FluentValue::try_number("2.50"))]);
    let image = args.image().expect("they fit");
    let digits: Vec<String> = image.iter().map(|byte| format!("{byte:02X}")).collect();
    assert!(header.contains(&format!("n = 2.5 is {}.", digits.join(" "))));
}
