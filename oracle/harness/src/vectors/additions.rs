//! additions.vec: new bundles and additions, with their refusals. The
//! Overriding records are the Rust's.

use super::formats::hurt;
use super::{File, CASES};
use crate::bytes::Write;
use crate::case::{Bundle, Item};
use crate::model::operations;
use crate::random::Random;
use crate::{encode, ftl, rust, Maker};
use fluent_syntax::ast::Resource;

/// What lent bytes hold before.
pub(super) const BEFORE: u8 = 0xAA;

pub fn make(seed: u64, cases: usize) -> File {
    let mut r = Random::new(seed ^ 4);
    let mut file = File::default();
    news(&mut file);
    named(&mut file);
    full(&mut file);
    let mut at = seed.wrapping_mul(9_000_011);
    let end = file.count() + 400 * cases / CASES;
    while file.count() < end {
        at += 1;
        chain(&mut file, &mut r, at);
    }
    file
}

fn number_of<T>(answer: &Result<T, u8>) -> u8 {
    match answer {
        Ok(_) => 0,
        Err(refusal) => *refusal,
    }
}

fn new_case(file: &mut File, length: usize, locale: u8, isolating: u8) {
    let mut slice = vec![BEFORE; length];
    let answer = operations::new(&mut slice, locale, isolating);
    let mut case = Vec::new();
    case.u32(length);
    case.raw(&[locale, isolating, number_of(&answer)]);
    case.blob(slice);
    file.case(30, case);
}

fn news(file: &mut File) {
    for length in 0..12 {
        for (locale, isolating) in [(0, 1), (3, 0), (4, 0), (2, 2), (255, 255)] {
            new_case(file, length, locale, isolating);
        }
    }
    for locale in 0..6 {
        for isolating in 0..3 {
            new_case(file, 9, locale, isolating);
            new_case(file, 20, locale, isolating);
        }
    }
}

/// Add resource over bytes; `errors` is the Rust's list, if it can be asked.
pub(super) fn resource_case(
    file: &mut File,
    mode: u8,
    before: &[u8],
    image: &[u8],
    length: usize,
    errors: Option<&[u8]>,
) -> Option<Vec<u8>> {
    let mut slice = before.to_vec();
    let mut list = vec![BEFORE; length];
    let answer = match mode {
        1 => operations::add_resource(&mut slice, image, Some(&mut list)),
        _ => operations::add_resource(&mut slice, image, None),
    };
    if let (Ok(_), Some(errors), 1) = (&answer, errors, mode) {
        assert_eq!(&list[..errors.len()], errors, "the Rust's own list");
    }
    let mut case = vec![mode];
    case.blob(before);
    case.blob(image);
    case.u32(length);
    case.u8(number_of(&answer));
    case.u16(*answer.as_ref().unwrap_or(&0));
    case.blob(&slice);
    case.blob(list);
    file.case(31, case);
    answer.is_ok().then_some(slice)
}

pub(super) fn function_case(
    file: &mut File,
    before: &[u8],
    id: &[u8],
    code: u8,
) -> Option<Vec<u8>> {
    let mut slice = before.to_vec();
    let answer = operations::add_function(&mut slice, id, code);
    let mut case = Vec::new();
    case.blob(before);
    case.str(id);
    case.raw(&[code, number_of(&answer)]);
    case.blob(&slice);
    file.case(32, case);
    answer.is_ok().then_some(slice)
}

fn bundle(items: Vec<Item>) -> Bundle {
    Bundle {
        locale: 0,
        isolating: true,
        items,
    }
}

/// The slice of a bundle with so many bytes more.
fn slice(bundle: &Bundle, more: usize) -> Vec<u8> {
    let mut slice = encode::store(bundle);
    slice.resize(slice.len() + more, BEFORE);
    slice
}

/// The list of the Rust's errors for a plain addition, and their count.
pub(super) fn rust_list(before: &Bundle, tree: &Resource<String>) -> (Vec<u8>, usize) {
    let mut bundle = rust::bundle(before);
    let errors = rust::add(&mut bundle, &Item::Plain(tree.clone()));
    (encode::error_list(&errors), errors.len())
}

/// Adds a tree to a bundle: ample, exact, and each buffer one short.
fn at_edges(file: &mut File, before: &Bundle, tree: &Resource<String>) {
    let image = encode::resource(tree);
    let item = image.len() + 1;
    let (list, _) = rust_list(before, tree);
    let exact = slice(before, item);
    let short = &exact[..exact.len() - 1];
    for (room, length) in [
        (&exact[..], list.len()),
        (&exact[..], list.len() - 1),
        (&exact[..], list.len() + 2),
        (short, list.len()),
        (short, list.len() - 1),
    ] {
        resource_case(file, 1, room, &image, length, Some(&list));
    }
    resource_case(file, 2, &exact, &image, 0, None);
    resource_case(file, 2, short, &image, 0, None);
}

/// Hand-made: repeats, clashes between kinds, the order of refusals.
fn named(file: &mut File) {
    let plain = |source: &str| Item::Plain(ftl::resource(source));
    let over = |source: &str| Item::Overriding(ftl::resource(source));
    let function = |id: &str| Item::Function(id.into());
    let befores = [
        vec![],
        vec![plain("foo = x")],
        vec![plain("-foo = x")],
        vec![function("foo")],
        vec![over("foo = x\nfoo = y")],
        vec![plain("foo = x"), over("-foo = y")],
        vec![function("foo"), over("foo = y")],
        vec![plain("foo = x"), function("foo")],
    ];
    let news = [
        "",
        "foo = y",
        "-foo = y",
        "foo = y\nfoo = z\n-foo = w",
        "bar = { foo }\n.x = y",
        "bar = y\n-bar = y\nfoo =\n.x = z",
    ];
    for items in befores {
        let before = bundle(items);
        for source in news {
            at_edges(file, &before, &ftl::resource(source));
        }
        for length in 0..6 {
            let image = encode::resource(&ftl::resource("b = c"));
            resource_case(file, 1, &slice(&before, 40), &image, length, None);
        }
        let room = slice(&before, 20);
        for id in ["foo", "bar", "F", "NUMBER"] {
            let added = function_case(file, &room, id.as_bytes(), 1).is_some();
            let mut rust = rust::bundle(&before);
            assert_eq!(rust::add(&mut rust, &function(id)).is_empty(), added);
        }
        // 4, 8, 9, 10 and 6 in that order.
        let tight = &room[..room.len() - 20 + 8 + 3];
        let mut broken = room.clone();
        broken[4] = 2;
        for (room, id, code) in [
            (&room[..], "foo", 0),
            (&room[..], "foo", 2),
            (&room[..], "bar", 255),
            (&room[..], "", 1),
            (&room[..], "1", 1),
            (&room[..], "-foo", 2),
            (&room[..], "a b", 0),
            (&broken[..], "bar", 1),
            (&broken[..], "", 2),
            (tight, "foo", 1),
            (tight, "bar", 1),
            (tight, "bar", 3),
            (tight, "ba", 1),
            (tight, "?", 1),
        ] {
            function_case(file, room, id.as_bytes(), code);
        }
        let image = encode::resource(&ftl::resource("foo = y"));
        let wrong = &image[..image.len() - 1];
        resource_case(file, 1, &broken, &image, 64, None);
        resource_case(file, 2, &broken, wrong, 0, None);
        resource_case(file, 1, &room, wrong, 64, None);
        resource_case(file, 2, &room, wrong, 0, None);
        resource_case(file, 1, &room[..room.len() - 15], wrong, 0, None);
    }
    let empty = slice(&bundle(vec![]), 300);
    for length in [1, 254, 255, 256] {
        function_case(file, &empty, "i".repeat(length).as_bytes(), 1);
    }
}

/// 255 and 256 items.
fn full(file: &mut File) {
    let nothing = || Item::Plain(Resource { body: Vec::new() });
    let tree = ftl::resource("a = b");
    let image = encode::resource(&tree);
    for count in [255, 256] {
        let mut items = vec![Item::Function("F".into())];
        items.extend((1..count).map(|_| nothing()));
        let before = slice(&bundle(items), 64);
        resource_case(file, 1, &before, &image, 16, None);
        resource_case(file, 1, &before, &image, 0, None);
        resource_case(file, 2, &before, &image, 0, None);
        function_case(file, &before, b"G", 1);
        function_case(file, &before, b"F", 1);
    }
}

/// Several additions one after the other, with slips.
fn chain(file: &mut File, r: &mut Random, seed: u64) {
    let mut maker = Maker::new(seed);
    if r.one_in(3) {
        // Now the maker's patterns have placeables.
        maker.bundle();
    }
    let mut items = Vec::new();
    let length = 40 + r.below(160);
    let mut held = vec![BEFORE; length];
    operations::new(&mut held, 0, 1).expect("long enough");
    for _ in 0..5 {
        let before = bundle(items.clone());
        if r.one_in(4) {
            let id = *r.pick(&["NUMBER", "F", "a", "b", "t"]);
            let code = if r.one_in(8) { r.below(3) as u8 } else { 1 };
            if let Some(after) = function_case(file, &held, id.as_bytes(), code) {
                held = after;
                items.push(Item::Function(id.into()));
            }
            continue;
        }
        let tree = maker.resource();
        let mut image = encode::resource(&tree);
        let mode = if r.one_in(3) { 2 } else { 1 };
        let (list, _) = rust_list(&before, &tree);
        if r.one_in(10) {
            hurt(r, &mut image);
            resource_case(file, mode, &held, &image, list.len(), None);
            continue;
        }
        if r.one_in(12) {
            let mut broken = held.clone();
            hurt(r, &mut broken);
            resource_case(file, mode, &broken, &image, list.len(), None);
            continue;
        }
        let length = match (mode, r.below(5)) {
            (2, _) => 0,
            (_, 0) => r.below(list.len()),
            (_, 1) => list.len() + r.below(9),
            _ => list.len(),
        };
        if let Some(after) = resource_case(file, mode, &held, &image, length, Some(&list)) {
            held = after;
            items.push(match mode {
                1 => Item::Plain(tree),
                _ => Item::Overriding(tree),
            });
        }
    }
}
