//! Tags, depths and counts of entries, patterns and expressions.

use super::parts::*;
use super::{Boundary, Bytes};
use crate::vectors::images::Kind::*;

pub(super) fn tags(out: &mut Vec<Boundary>) {
    for tag in 0..=9 {
        let e = tagged(tag);
        let any = (1..=8).contains(&tag);
        let inline = (1..=7).contains(&tag);
        out.push((Resource, placeable(&e), any));
        out.push((Resource, placeable(&[&[7], &e[..]].concat()), any));
        out.push((
            Resource,
            placeable(&function(std::slice::from_ref(&e), &[])),
            inline,
        ));
        let call = call(&[literal(2, b"1"), e.clone()], &[]);
        out.push((Resource, placeable(&term(Some(call))), inline));
        let chosen = select(&e, &[(key("o"), 1, word())]);
        out.push((Resource, placeable(&chosen), inline));
        let named = function(&[], &[("x", e.clone())]);
        out.push((Resource, placeable(&named), tag == 1 || tag == 2));
        // As the tag of an element, an entry, a key and a value.
        let element = literal(tag, b"x");
        out.push((Resource, image(&pattern_of(1, &element)), tag == 1));
        let kind = entry(tag, "a", Some(&word()), &[]);
        out.push((Resource, image_of(1, &kind), tag == 1 || tag == 2));
        let keyed = |text: &[u8]| select(&literal(2, b"1"), &[(literal(tag, text), 0, word())]);
        out.push((Resource, placeable(&keyed(b"x")), tag == 1));
        out.push((Resource, placeable(&keyed(b"1")), tag == 2));
        let argument = [&id("n")[..], &literal(tag, b"x")].concat();
        out.push((Arguments, image_of(1, &argument), tag == 1));
        // As each Flag.
        let flag = tag == 0;
        let message = [&[4][..], &id("m"), &[tag]].concat();
        out.push((Resource, placeable(&message), flag));
        let first = [&[5][..], &id("t"), &[tag, 0]].concat();
        out.push((Resource, placeable(&first), flag));
        let second = [&[5][..], &id("t"), &[0, tag]].concat();
        out.push((Resource, placeable(&second), flag));
        let default = select(&literal(2, b"1"), &[(key("o"), tag, word())]);
        out.push((Resource, placeable(&default), tag <= 1));
    }
}

/// Expressions that nest in one way, to depth 32 and to 33.
pub(super) fn depths(out: &mut Vec<Boundary>) {
    let ways: [fn(Bytes) -> Bytes; 6] = [
        |e| [&[7], &e[..]].concat(),
        |e| function(&[e], &[("x", literal(1, b"y"))]),
        |e| term(Some(call(&[e], &[]))),
        |e| [&[7][..], &select(&e, &[(key("o"), 1, word())])].concat(),
        |e| select(&literal(1, b""), &[(key("o"), 1, pattern(&e))]),
        |e| {
            let first = (key("x"), 0, word());
            let second = (key("o"), 1, pattern(&e));
            select(&literal(1, b""), &[first, second])
        },
    ];
    let last = [
        literal(1, b"x"),
        function(&[], &[("x", literal(2, b"1"))]),
        select(&literal(1, b""), &[(key("o"), 1, word())]),
    ];
    for (at, way) in ways.iter().enumerate() {
        // A select inside a tag 7 goes down two at a time.
        let each = if at == 3 { 2 } else { 1 };
        for (which, end) in last.iter().enumerate() {
            let select_ends = which == 2;
            if select_ends && (1..=3).contains(&at) {
                continue;
            }
            for times in [30 / each, 31 / each, 32 / each] {
                let mut e = end.clone();
                for _ in 0..times {
                    e = way(e);
                }
                let depth = 1 + each * times + usize::from(select_ends);
                out.push((Resource, placeable(&e), depth <= 32));
            }
        }
    }
}

pub(super) fn counts(out: &mut Vec<Boundary>) {
    let mut more = |bytes: Bytes, fine| out.push((Resource, bytes, fine));
    more(image_of(0, &[]), true);
    more(image_of(1, &[]), false);
    more(image_of(0, &entry(1, "a", Some(&word()), &[])), false);
    let two = entry(1, "a", Some(&word()), &[]).repeat(2);
    more(image_of(2, &two), true);
    more(image_of(1, &two), false);
    more(image_of(3, &two), false);
    more(image(&pattern_of(0, &[])), false);
    more(image(&pattern_of(2, &text_element(b"x"))), false);
    more(image(&pattern_of(1, &text_element(b"x").repeat(2))), false);
    more(image(&pattern_of(2, &text_element(b"x").repeat(2))), true);
    more(placeable(&select(&literal(2, b"1"), &[])), false);
    let variant = (key("o"), 1, word());
    let several = select(&literal(2, b"1"), &[variant.clone(), variant]);
    more(placeable(&several), true);
    more(image_of(1, &entry(1, "a", None, &[])), false);
    more(image_of(1, &entry(2, "a", None, &[])), false);
    let x = [("x", &word()[..])];
    more(image_of(1, &entry(1, "a", None, &x)), true);
    more(image_of(1, &entry(2, "a", None, &x)), false);
    more(image_of(1, &entry(2, "a", Some(&word()), &x)), true);
    let twice = [x[0], x[0]];
    more(image_of(1, &entry(1, "a", None, &twice)), true);
    // Names of arguments, once and twice.
    let one = || literal(2, b"1");
    more(
        placeable(&function(&[], &[("x", one()), ("y", one())])),
        true,
    );
    more(
        placeable(&function(&[], &[("x", one()), ("x", one())])),
        false,
    );
    more(
        placeable(&function(&[], &[("x", one()), ("X", one())])),
        true,
    );
    let three = [("x", one()), ("y", one()), ("x", literal(1, b""))];
    more(placeable(&function(&[], &three)), false);
    more(placeable(&term(Some(call(&[], &three)))), false);
    more(placeable(&function(&[one(), one()], &[])), true);
}
