//! String literals that were worked out by hand: what they read as, which are refused,
//! the formattings and sheets that have them, and that they show a wrong reading.
#![forbid(unsafe_code)]

use fluent_syntax::unicode::unescape_unicode_to_string;
use harness::escapes::{
    by_digit, changed, formattings, image, refused, sheets, store, told, PLACES,
};
use harness::model::effects::Lengths;
use harness::model::escapes::{digit, unescape, utf8, value, written, Reading, DIGITS, READING};
use harness::model::operations;
use harness::model::reader::{self, resource};
use harness::{encode, expected, expected_sheet};
use std::collections::HashSet;

#[test]
fn they_read_as_told() {
    let all = told();
    for told in &all {
        let literal = &told.literal;
        let text = unescape(literal.as_bytes());
        assert_eq!(text.as_deref(), Some(told.text), "{literal}");
        let by_standin = unescape_unicode_to_string(literal);
        assert_eq!(by_standin.as_bytes(), told.text, "{literal}");
        for place in 0..PLACES {
            let image = image(literal.as_bytes(), place);
            assert!(resource(&image).is_some(), "{literal} at {place}");
        }
    }
    assert_eq!(all.len(), 662);
}

#[test]
fn they_are_refused() {
    let all = refused();
    for literal in &all {
        let shown = String::from_utf8_lossy(literal);
        assert_eq!(unescape(literal), None, "{shown}");
        for place in 0..PLACES {
            let image = image(literal, place);
            assert!(resource(&image).is_none(), "{shown} at {place}");
        }
        assert!(reader::store(&store(literal)).is_none(), "{shown}");
    }
    let once: HashSet<_> = all.iter().collect();
    assert_eq!((all.len(), once.len()), (648, 648));
}

/// Each digit stands at each of the four places and of the six, with a 0 at all
/// others.
#[test]
fn every_digit_at_every_place() {
    let all: HashSet<String> = by_digit().into_iter().map(|told| told.literal).collect();
    for (letter, count) in [('u', 4), ('U', 6)] {
        for at in 0..count {
            for digit in DIGITS.map(char::from) {
                let (before, behind) = ("0".repeat(at), "0".repeat(count - at - 1));
                let literal = format!("\\{letter}{before}{digit}{behind}");
                assert!(all.contains(&literal), "{literal}");
            }
        }
    }
    // those of 0 are the same at every place
    assert_eq!(all.len(), 21 * 10 + 2);
}

#[test]
fn formattings_by_hand() {
    let all = formattings();
    for point in &all {
        let e = expected(&point.case).expect("they agree");
        let done = e.answer.as_ref().expect("it finishes");
        let text = String::from_utf8_lossy(&done.text);
        assert_eq!(text, point.text, "{:?}", point.case);
        assert_eq!(done.highest, point.figure, "{:?}", point.case);
        assert!(e.from_rust);
    }
    assert_eq!(all.len(), told().len() + 42);
}

#[test]
fn sheets_by_hand() {
    let all = sheets();
    for point in &all {
        let e = expected_sheet(&point.sheet).expect("they agree");
        let done = e.answer.as_ref().expect("it finishes");
        let text = String::from_utf8_lossy(&done.text);
        assert_eq!(text, point.text, "{:?}", point.sheet.rows);
        assert_eq!(done.figures.highest, point.figure);
        assert!(e.from_rust);
    }
    assert_eq!(all.len(), 8);
}

#[test]
fn changed_stores() {
    let all = changed();
    for (at, point) in all.iter().enumerate() {
        let arguments = encode::arguments(&[]);
        let prepared = operations::prepare(&point.store, b"a", None, &arguments);
        let answer = operations::format(&prepared, Lengths::AMPLE);
        let text = answer.map(|done| String::from_utf8_lossy(&done.text).into_owned());
        assert_eq!(text, point.said.map(String::from), "{at}");
    }
    assert_eq!(all.len(), 53);
}

/// How many literals are read otherwise than told, and how many that are refused are
/// read.
fn noticed(reading: Reading) -> [usize; 2] {
    let all = told();
    let other =
        |literal: &str, text: &[u8]| reading.text(literal.as_bytes()).as_deref() != Some(text);
    let otherwise = all.iter().filter(|told| other(&told.literal, told.text));
    let all = refused();
    let taken = all.iter().filter(|literal| reading.text(literal).is_some());
    [otherwise.count(), taken.count()]
}

fn by_digits(digit: &dyn Fn(u8) -> Option<u32>) -> [usize; 2] {
    noticed(Reading { digit, ..READING })
}

/// Each of the 22, were its value one more or one less, would be noticed.
#[test]
fn every_wrong_digit_is_noticed() {
    assert_eq!(noticed(READING), [0, 0]);
    for wrong in *DIGITS {
        for off in [1, -1] {
            let other = |byte: u8| {
                let value = digit(byte)?;
                Some(match byte == wrong {
                    true => value.wrapping_add_signed(off) & 31,
                    false => value,
                })
            };
            let [otherwise, taken] = by_digits(&other);
            let shown = char::from(wrong);
            assert!(otherwise >= 10 && taken == 0, "{shown}: {otherwise}");
        }
        let none = |byte: u8| digit(byte).filter(|_| byte != wrong);
        assert!(by_digits(&none)[0] >= 10);
    }
}

/// Letters that are one too small, or small ones whose bit is left in.
#[test]
fn wrong_letters_are_noticed() {
    let too_small = |byte: u8| {
        let value = digit(byte)?;
        Some(value - u32::from(byte.is_ascii_alphabetic()))
    };
    let with_bit = |byte: u8| {
        let value = digit(byte)?;
        Some(value + 32 * u32::from(byte.is_ascii_lowercase()))
    };
    let capitals_only = |byte: u8| digit(byte).filter(|_| !byte.is_ascii_lowercase());
    let modulo = |byte: u8| digit(byte).map(|_| u32::from(byte) % 16);
    for (what, wrong) in [
        ("too small", &too_small as &dyn Fn(u8) -> Option<u32>),
        ("with the bit", &with_bit),
        ("capitals only", &capitals_only),
        ("modulo 16", &modulo),
    ] {
        let [otherwise, taken] = by_digits(wrong);
        assert!(otherwise > 100 && taken == 0, "{what}: {otherwise}");
    }
}

/// A byte beside a range that is taken for a digit; and all of them.
#[test]
fn bytes_that_are_no_digits_are_noticed() {
    for (byte, value) in [
        (b'/', 15),
        (b':', 10),
        (b'@', 9),
        (b'G', 16),
        (b'`', 9),
        (b'g', 16),
        (b'\0', 0),
        (b' ', 0),
    ] {
        let wrong = |b: u8| match b == byte {
            true => Some(value),
            false => digit(b),
        };
        // at each of ten places
        let [otherwise, taken] = by_digits(&wrong);
        assert!(otherwise == 0 && taken >= 10, "{}", char::from(byte));
    }
    let high = |byte: u8| digit(byte & 0x7F);
    // 22 digits at ten places, and U+0175, whose bytes are two of them
    assert_eq!(by_digits(&high), [0, 230]);
    let untested = |byte: u8| Some(u32::from(byte % 16 + byte / 64 * 9));
    let [otherwise, taken] = by_digits(&untested);
    assert!(otherwise == 0 && taken > 500, "{taken}");
}

/// Wrong values of right digits.
#[test]
fn wrong_values_are_noticed() {
    let backwards = |digits: &[u32]| {
        let digits: Vec<u32> = digits.iter().rev().copied().collect();
        value(&digits)
    };
    let by_ten = |digits: &[u32]| digits.iter().fold(0, |sum, digit| sum * 10 + digit);
    let sixteen_bits = |digits: &[u32]| value(digits) & 0xFFFF;
    for (what, wrong) in [
        ("backwards", &backwards as &dyn Fn(&[u32]) -> u32),
        ("by ten", &by_ten),
        ("sixteen bits", &sixteen_bits),
    ] {
        let [otherwise, taken] = noticed(Reading {
            value: wrong,
            ..READING
        });
        assert!(otherwise > 50 && taken == 0, "{what}: {otherwise}");
    }
}

/// Wrong texts of right values.
#[test]
fn wrong_texts_are_noticed() {
    let surrogates = |value: u32| match value {
        0xD800..=0xDFFF => utf8(value),
        _ => written(value),
    };
    let above = |value: u32| match value {
        0x110000.. => utf8(value & 0x1F_FFFF),
        _ => written(value),
    };
    let above_as_mark = |value: u32| match value {
        0x110000.. => b"?".to_vec(),
        _ => written(value),
    };
    let only_110000 = |value: u32| match value {
        0x110000 => utf8(0x10FFFF),
        _ => written(value),
    };
    let too_much = |value: u32| match value {
        0xFFFE | 0xFFFF => utf8(0xFFFD),
        _ => written(value),
    };
    for (what, wrong) in [
        ("surrogates kept", &surrogates as &dyn Fn(u32) -> Vec<u8>),
        ("above 10FFFF kept", &above),
        ("above 10FFFF as a mark", &above_as_mark),
        ("110000 as 10FFFF", &only_110000),
        ("noncharacters replaced", &too_much),
    ] {
        let [otherwise, taken] = noticed(Reading {
            written: wrong,
            ..READING
        });
        assert!(otherwise > 0 && taken == 0, "{what}: {otherwise}");
    }
}
