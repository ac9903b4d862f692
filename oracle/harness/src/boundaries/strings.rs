//! What a Str may hold: ids, number literals, texts and escapes.

use super::parts::*;
use super::{Boundary, Bytes};
use crate::bytes::Write;
use crate::vectors::images::Kind::*;

/// String literals, with and without an escape that document 01 knows.
pub const ESCAPES: [&str; 44] = [
    "",
    "x",
    "\\\\",
    "\\\"",
    "\\u0041",
    "\\u00e9",
    "\\u00E9",
    "\\uFFFF",
    "\\u0000",
    "\\uD7FF",
    "\\uD800",
    "\\uDBFF",
    "\\uDC00",
    "\\uDFFF",
    "\\uE000",
    "\\U000041",
    "\\U01F40B",
    "\\U00D800",
    "\\U00DFFF",
    "\\U00E000",
    "\\U10FFFF",
    "\\U110000",
    "\\UFFFFFF",
    "\\Uabcdef",
    "\\u00411",
    "x\\u0041y\\\\z",
    "\\\\u0041",
    "\\\\\\\\",
    "\\\\\\\"",
    "\\U01F40B\\u0041é",
    "\"",
    "\n",
    "é\\\\",
    // Not known:
    "\\",
    "x\\",
    "\\u004",
    "\\u004g",
    "\\u",
    "\\U00004",
    "\\U00004G",
    "\\n",
    "\\'",
    "\\x41",
    "\\\\\\",
];
const KNOWN_ESCAPES: usize = 33;

pub(super) fn ids(out: &mut Vec<Boundary>) {
    let long = |n: usize| "a".repeat(n);
    let names: [(&str, bool); 14] = [
        ("a", true),
        ("Z", true),
        ("z-_09AZaz", true),
        ("a-", true),
        (&long(255), true),
        (&long(256), false),
        ("", false),
        ("0a", false),
        ("-a", false),
        ("_a", false),
        ("a.b", false),
        ("a b", false),
        ("é", false),
        ("aé", false),
    ];
    for (name, fine) in names {
        let e = entry(1, name, Some(&word()), &[]);
        out.push((Resource, image_of(1, &e), fine));
        let e = entry(1, "a", None, &[(name, &word())]);
        out.push((Resource, image_of(1, &e), fine));
        let places = [
            [&[3][..], &id(name), &call(&[], &[])].concat(),
            [&[4][..], &id(name), &[0]].concat(),
            [&[4][..], &id("m"), &[1], &id(name)].concat(),
            [&[5][..], &id(name), &[0, 0]].concat(),
            [&[5][..], &id("t"), &[1], &id(name), &[0]].concat(),
            [&[6][..], &id(name)].concat(),
            function(&[], &[(name, literal(1, b""))]),
            select(&literal(2, b"1"), &[(key(name), 0, word())]),
        ];
        // The long ones in one place are enough.
        let some = if name.len() > 200 { 2 } else { places.len() };
        for place in &places[..some] {
            out.push((Resource, placeable(place), fine));
        }
        let mut record = Bytes::new();
        record.u32(8 + name.len());
        record.raw(&[1, 1]);
        record.str(name);
        out.push((Store, store(1, &[&[3], &record[..]].concat()), fine));
        let argument = [&id(name)[..], &[3]].concat();
        out.push((Arguments, image_of(1, &argument), fine));
    }
}

pub(super) fn numbers(out: &mut Vec<Boundary>) {
    let literals: [(&str, bool); 24] = [
        ("0", true),
        ("-0", true),
        ("007", true),
        ("-0.0", true),
        ("123456789012345", true),
        ("-123456789012345", true),
        ("1234567890123.45", true),
        ("000000000000001", true),
        ("0.00000000000001", true),
        ("1234567890123456", false),
        ("12345678.12345678", false),
        ("0.000000000000001", false),
        ("", false),
        ("-", false),
        ("1.", false),
        (".5", false),
        ("-.5", false),
        ("+1", false),
        ("1e3", false),
        ("1.2.3", false),
        ("--1", false),
        (" 1", false),
        ("1:", false),
        ("/1", false),
    ];
    for (text, fine) in literals {
        let number = literal(2, text.as_bytes());
        let places = [
            number.clone(),
            function(&[], &[("x", number.clone())]),
            select(&literal(1, b""), &[(number.clone(), 0, word())]),
        ];
        for place in places {
            out.push((Resource, placeable(&place), fine));
        }
    }
}

pub(super) fn texts(out: &mut Vec<Boundary>) {
    let sequences: [(&[u8], bool); 40] = [
        (b"\x00", true),
        (b"\n", true),
        (b"\x7F", true),
        (b"\xC2\x80", true),
        (b"\xDF\xBF", true),
        (b"\xE0\xA0\x80", true),
        (b"\xE0\xBF\xBF", true),
        (b"\xE1\x80\x80", true),
        (b"\xEC\xBF\xBF", true),
        (b"\xED\x9F\xBF", true),
        (b"\xEE\x80\x80", true),
        (b"\xEF\xBF\xBF", true),
        (b"\xF0\x90\x80\x80", true),
        (b"\xF1\x80\x80\x80", true),
        (b"\xF3\xBF\xBF\xBF", true),
        (b"\xF4\x8F\xBF\xBF", true),
        (b"a\xC3\xA9b", true),
        (b"\x80", false),
        (b"\xBF", false),
        (b"\xC0\x80", false),
        (b"\xC1\xBF", false),
        (b"\xC2", false),
        (b"\xC2\x7F", false),
        (b"\xC2\xC0", false),
        (b"\xE0\x80\x80", false),
        (b"\xE0\x9F\xBF", false),
        (b"\xE1\x80", false),
        (b"\xE1\x80\xC0", false),
        (b"\xED\xA0\x80", false),
        (b"\xED\xBF\xBF", false),
        (b"\xEF\xBF", false),
        (b"\xF0\x80\x80\x80", false),
        (b"\xF0\x8F\xBF\xBF", false),
        (b"\xF1\x80\x80", false),
        (b"\xF4\x90\x80\x80", false),
        (b"\xF5\x80\x80\x80", false),
        (b"\xF8\x88\x80\x80\x80", false),
        (b"\xFE", false),
        (b"\xFF", false),
        (b"a\xC3", false),
    ];
    for (text, fine) in sequences {
        out.push((Resource, image(&pattern_of(1, &text_element(text))), fine));
        out.push((Resource, placeable(&literal(1, text)), fine));
        let named = function(&[], &[("x", literal(1, text))]);
        out.push((Resource, placeable(&named), fine));
        let argument = [&id("n")[..], &literal(1, text)].concat();
        out.push((Arguments, image_of(1, &argument), fine));
    }
    // A character split over two elements, and an empty text element.
    let split = [text_element(b"\xC3"), text_element(b"\xA9")].concat();
    out.push((Resource, image(&pattern_of(2, &split)), false));
    out.push((Resource, image(&pattern_of(1, &text_element(b""))), false));
    for (at, escape) in ESCAPES.iter().enumerate() {
        let string = literal(1, escape.as_bytes());
        let fine = at < KNOWN_ESCAPES;
        out.push((Resource, placeable(&string), fine));
        let named = function(&[], &[("x", string.clone())]);
        out.push((Resource, placeable(&named), fine));
        // In text and in arguments a backslash is a letter like any other.
        if !escape.is_empty() {
            let text = text_element(escape.as_bytes());
            out.push((Resource, image(&pattern_of(1, &text)), true));
        }
        let argument = [&id("n")[..], &string].concat();
        out.push((Arguments, image_of(1, &argument), true));
    }
}

/// How many places `image_with` knows.
pub(crate) const PLACES: usize = 8;

/// A resource image of the message `a` with a string literal at one of its places,
/// well-formed if the literal is.
pub(crate) fn image_with(text: &[u8], place: usize) -> Bytes {
    let string = literal(1, text);
    let expression = match place {
        0 => string,
        1 => function(&[], &[("x", string)]),
        2 => function(&[literal(2, b"1"), string], &[]),
        3 => term(Some(call(&[], &[("x", string)]))),
        4 => term(Some(call(&[string], &[]))),
        5 => select(&string, &[(key("o"), 1, word())]),
        6 => [&[7][..], &string].concat(),
        _ => {
            let inner = pattern(&string);
            let value = pattern(&select(&literal(2, b"1"), &[(key("o"), 1, inner.clone())]));
            return image_of(1, &entry(1, "a", Some(&value), &[("x", &inner)]));
        }
    };
    placeable(&expression)
}

/// A store with one resource image.
pub(crate) fn store_with(image: &[u8]) -> Bytes {
    store(1, &[&[1], image].concat())
}
