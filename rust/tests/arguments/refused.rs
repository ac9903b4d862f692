//! Images that were made elsewhere: 19 where they are well-formed and not in
//! order.

use crate::image::{is_least, written, Value};
use crate::{bundle, text, NAMES};
use weszlagyo::operations::{format, format_sheet};
use weszlagyo::{Buffers, FluentArgs, Refusal, Sheet};

const UNORDERED: Result<(), Refusal> = Err(Refusal::UNORDERED_ARGUMENTS);

/// What a formatting says of an image.
fn judged(image: &[u8]) -> Result<(), Refusal> {
    text(&bundle(), image).map(|_| ())
}

/// An image of these names, without values.
fn of_names(names: &[&str]) -> Vec<u8> {
    written(names.iter().map(|name| (*name, Value::None)))
}

/// `b` before `a`.
fn unordered() -> Vec<u8> {
    of_names(&["b", "a"])
}

#[test]
fn two_names_ascend_or_are_refused() {
    for (first, one) in NAMES.iter().enumerate() {
        for (second, other) in NAMES.iter().enumerate() {
            let expected = if first < second { Ok(()) } else { UNORDERED };
            assert_eq!(judged(&of_names(&[one, other])), expected, "{one} {other}");
        }
    }
    let long = ["a".repeat(254), "a".repeat(255)];
    assert_eq!(judged(&of_names(&[&long[0], &long[1]])), Ok(()));
    assert_eq!(judged(&of_names(&[&long[1], &long[0]])), UNORDERED);
    assert_eq!(judged(&of_names(&[&long[1], &long[1]])), UNORDERED);
}

/// Wherever the two stand that are exchanged, or are one name.
#[test]
fn one_pair_that_does_not_ascend_is_enough() {
    assert_eq!(judged(&of_names(&NAMES)), Ok(()));
    for at in 1..NAMES.len() {
        let mut names = NAMES;
        names.swap(at - 1, at);
        assert_eq!(judged(&of_names(&names)), UNORDERED, "{names:?}");
        names = NAMES;
        names[at] = names[at - 1];
        assert_eq!(judged(&of_names(&names)), UNORDERED, "{names:?}");
    }
}

#[test]
fn a_scale_is_the_least_or_refused() {
    let many = [0, 1, 9, 10, 11, 100, 150, 999_999_999_999_990];
    for digits in many.into_iter().chain([999_999_999_999_999]) {
        for scale in 0..=14 {
            for negative in [false, true] {
                let expected = match is_least(digits, scale) {
                    true => Ok(()),
                    false => UNORDERED,
                };
                let number = Value::Number(negative, digits, scale);
                let image = written([("a", number.clone())]);
                assert_eq!(judged(&image), expected, "{number:?}");
                // an argument that no pattern names is judged too
                let behind = written([("a", Value::Number(false, 1, 0)), ("z", number)]);
                assert_eq!(judged(&behind), expected);
            }
        }
    }
}

/// Of all images of the same names and values one is accepted: that of
/// `FluentArgs`.
#[test]
fn one_image_for_the_same_names_and_values() {
    let halves = [(15, 1), (150, 2), (1_500, 3)].map(|(d, s)| Value::Number(false, d, s));
    let zeros = [0, 1, 2].map(|scale| Value::Number(true, 0, scale));
    let mut accepted = Vec::new();
    for half in &halves {
        for zero in &zeros {
            let [a, b, c] = [
                ("a", half.clone()),
                ("b", zero.clone()),
                ("c", Value::Text("x".into())),
            ];
            let images = [
                written([a.clone(), b.clone(), c.clone()]),
                written([a.clone(), c.clone(), b.clone()]),
                written([b.clone(), a.clone(), c.clone()]),
                written([b.clone(), c.clone(), a.clone()]),
                written([c.clone(), a.clone(), b.clone()]),
                written([c, b, a]),
            ];
            accepted.extend(images.into_iter().filter(|image| judged(image).is_ok()));
        }
    }
    let args = [
        ("c", Value::Text("x".into())),
        ("a", halves[2].clone()),
        ("b", zeros[2].clone()),
    ];
    let args: FluentArgs = args.into_iter().map(|(n, v)| (n, v.given())).collect();
    assert_eq!(accepted, [args.image().expect("they fit")]);
}

/// 13 is judged in full first.
#[test]
fn malformed_comes_before_unordered() {
    let whole = unordered();
    let with = |at: usize, byte: u8| {
        let mut image = whole.clone();
        image[at] = byte;
        image
    };
    let cut = whole[..whole.len() - 1].to_vec();
    let longer = [whole.as_slice(), &[0]].concat();
    // the version; the first name's byte; the last value's kind
    for image in [with(4, 2), with(9, b'!'), with(14, 9), cut, longer] {
        assert_eq!(judged(&image), Err(Refusal::MALFORMED_ARGUMENTS));
    }
    for last in [
        Value::Number(false, 1_000_000_000_000_000, 0),
        Value::Number(false, 10, 15),
    ] {
        let image = written([("b", Value::Number(false, 10, 1)), ("a", last)]);
        assert_eq!(judged(&image), Err(Refusal::MALFORMED_ARGUMENTS));
    }
    assert_eq!(judged(&whole), UNORDERED);
}

/// 4, 8, 11 and 12 come before it and 7 for a list under 5 bytes behind it, and
/// nothing is changed.
#[test]
fn its_place_among_the_refusals_of_a_formatting() {
    let (bundle, arguments) = (bundle(), unordered());
    let store = bundle.store();
    let cut = &store[..store.len() - 1];
    let refused = Refusal::UNORDERED_ARGUMENTS;
    for (store, id, attribute, list_length, refusal) in [
        (cut, "m", None, 99, Refusal::MALFORMED_STORE),
        (store, "!", None, 99, Refusal::NO_ID),
        (store, "n", None, 99, Refusal::NO_MESSAGE),
        (store, "m", Some("n"), 99, Refusal::NO_PATTERN),
        (store, "m", None, 99, refused),
        (store, "m", Some("other"), 99, refused),
        (store, "m", None, 4, refused),
        (store, "m", None, 0, refused),
    ] {
        let (mut text, mut list, mut work) = ([7; 9], vec![7; list_length], [7; 9]);
        let answer = format(
            store,
            id.as_bytes(),
            attribute.map(str::as_bytes),
            &arguments,
            &mut text,
            &mut list,
            &mut work,
        );
        assert_eq!(answer, Err(refusal), "{id} {attribute:?} {list_length}");
        assert_eq!((text, work), ([7; 9], [7; 9]));
        assert_eq!(list, vec![7; list_length]);
    }
}

/// A sheet of `m` with each of these images, then of a message that is not
/// there.
fn sheet(images: &[&[u8]]) -> Sheet {
    let mut sheet = Sheet::new();
    for image in images {
        sheet.push_image("m", None, image).expect("it fits");
    }
    sheet.push("nothing", None, None).expect("it fits");
    sheet
}

/// It is its message's refusal, and fills the three buffers with zeros.
#[test]
fn in_a_sheet() {
    let bundle = bundle();
    let good = written([("a", Value::Text("Text".into()))]);
    let bad = unordered();
    let scale = written([("a", Value::Number(false, 150, 2))]);
    let malformed = [&bad[..bad.len() - 1], &[9]].concat();
    let refused = Refusal::UNORDERED_ARGUMENTS;
    for (images, refusal) in [
        (vec![&bad], refused),
        (vec![&scale], refused),
        (vec![&good, &bad], refused),
        (vec![&good, &good, &scale, &malformed], refused),
        (vec![&good, &malformed, &bad], Refusal::MALFORMED_ARGUMENTS),
        (vec![&good], Refusal::NO_MESSAGE),
    ] {
        let images: Vec<&[u8]> = images.into_iter().map(Vec::as_slice).collect();
        let sheet = sheet(&images);
        let (mut text, mut list, mut work) = ([7; 99], [7; 99], [7; 9]);
        let answer = format_sheet(
            bundle.store(),
            sheet.image(),
            &mut text,
            &mut list,
            &mut work,
        );
        assert_eq!(answer, Err(refusal));
        assert_eq!((text, list, work), ([0; 99], [0; 99], [0; 9]));
        let answer = bundle.format_sheet_in(&mut Buffers::default(), &sheet);
        assert_eq!(answer, Err(refusal));
    }
}

/// 7 for a list under 5 bytes comes before any message, and changes nothing.
#[test]
fn in_a_sheet_with_a_short_list() {
    let (bundle, sheet) = (bundle(), sheet(&[&unordered()]));
    let (mut text, mut list, mut work) = ([7; 9], [7; 4], [7; 9]);
    let answer = format_sheet(
        bundle.store(),
        sheet.image(),
        &mut text,
        &mut list,
        &mut work,
    );
    assert_eq!(answer, Err(Refusal::SHORT_LIST));
    assert_eq!((text, list, work), ([7; 9], [7; 4], [7; 9]));
}

#[test]
fn its_number_and_words() {
    let refusal = Refusal::UNORDERED_ARGUMENTS;
    assert_eq!(refusal.number(), 19);
    assert_eq!(
        refusal.to_string(),
        "refusal 19: the arguments are not in order"
    );
}
