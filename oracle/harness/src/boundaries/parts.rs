//! The bytes of stores, images and what is inside them, well-formed or not.

use super::Bytes;
use crate::bytes::Write;

pub(super) fn id(name: &str) -> Bytes {
    let mut out = Bytes::new();
    out.str(name);
    out
}

pub(super) fn pattern_of(count: usize, elements: &[u8]) -> Bytes {
    let mut out = Bytes::new();
    out.u32(2 + elements.len());
    out.u16(count);
    out.raw(elements);
    out
}

pub(super) fn text_element(text: &[u8]) -> Bytes {
    let mut out = vec![1];
    out.str(text);
    out
}

/// A pattern with one placeable.
pub(super) fn pattern(expression: &[u8]) -> Bytes {
    pattern_of(1, &[&[2], expression].concat())
}

pub(super) fn image_of(count: usize, entries: &[u8]) -> Bytes {
    let mut out = Bytes::new();
    out.u32(7 + entries.len());
    out.u8(1);
    out.u16(count);
    out.raw(entries);
    out
}

pub(super) fn entry(
    kind: u8,
    name: &str,
    value: Option<&[u8]>,
    attributes: &[(&str, &[u8])],
) -> Bytes {
    let mut out = vec![kind];
    out.str(name);
    out.flag(value.is_some());
    out.raw(value.unwrap_or_default());
    out.u16(attributes.len());
    for (name, pattern) in attributes {
        out.str(name);
        out.raw(pattern);
    }
    out
}

/// The message `a` with this pattern.
pub(super) fn image(pattern: &[u8]) -> Bytes {
    image_of(1, &entry(1, "a", Some(pattern), &[]))
}

/// The message `a` with this placeable.
pub(super) fn placeable(expression: &[u8]) -> Bytes {
    image(&pattern(expression))
}

pub(super) fn literal(tag: u8, text: &[u8]) -> Bytes {
    let mut out = vec![tag];
    out.str(text);
    out
}

pub(super) fn call(positional: &[Bytes], named: &[(&str, Bytes)]) -> Bytes {
    let mut out = Bytes::new();
    out.u16(positional.len());
    out.raw(&positional.concat());
    out.u16(named.len());
    for (name, value) in named {
        out.str(name);
        out.raw(value);
    }
    out
}

pub(super) fn function(positional: &[Bytes], named: &[(&str, Bytes)]) -> Bytes {
    [&[3][..], &id("F"), &call(positional, named)].concat()
}

pub(super) fn term(arguments: Option<Bytes>) -> Bytes {
    let mut out = [&[5][..], &id("t"), &[0]].concat();
    out.flag(arguments.is_some());
    out.raw(&arguments.unwrap_or_default());
    out
}

pub(super) fn select(selector: &[u8], variants: &[(Bytes, u8, Bytes)]) -> Bytes {
    let mut out = [&[8], selector].concat();
    out.u16(variants.len());
    for (key, default, pattern) in variants {
        out.raw(key);
        out.u8(*default);
        out.raw(pattern);
    }
    out
}

pub(super) fn key(name: &str) -> Bytes {
    [&[1][..], &id(name)].concat()
}

pub(super) fn word() -> Bytes {
    pattern_of(1, &text_element(b"w"))
}

/// A well-formed expression of each tag; 0 and 9 with something behind them.
pub(super) fn tagged(tag: u8) -> Bytes {
    match tag {
        1 => literal(1, b"x"),
        2 => literal(2, b"1"),
        3 => function(&[], &[]),
        4 => [&[4][..], &id("m"), &[0]].concat(),
        5 => term(None),
        6 => [&[6][..], &id("v")].concat(),
        7 => vec![7, 1, 0, 1, b'x'],
        8 => select(&literal(2, b"1"), &[(key("o"), 1, word())]),
        _ => literal(tag, b"x"),
    }
}

/// A store of locale en that isolates.
pub(super) fn store(count: usize, items: &[u8]) -> Bytes {
    let mut out = Bytes::new();
    out.u32(9 + items.len());
    out.raw(&[1, 0, 1]);
    out.u16(count);
    out.raw(items);
    out
}
