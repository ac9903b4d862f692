//! Operation 1: literals.

use super::fields::decimal_field;
use crate::bytes::Write;
use crate::model::number::literal;
use crate::random::Random;
use crate::rust::number as rust;
use crate::vectors::File;
use fluent_bundle::types::FluentNumber;
use std::str::FromStr;

pub(super) const LITERALS: [&[u8]; 44] = [
    b"0",
    b"-0",
    b"1",
    b"007",
    b"-0.0",
    b"1.0",
    b"0.0",
    b"5.50",
    b"123456789012345",
    b"1234567890123456",
    b"-999999999999999",
    b"000000000000001",
    b"0000000000000001",
    b"0.00000000000001",
    b"0.000000000000001",
    b"12345678901234.5",
    b"1.23456789012345",
    b"12345678.9012345",
    b"-12345678.9012345",
    b"12345678.90123456",
    b"",
    b"-",
    b".",
    b"-.",
    b"1.",
    b".5",
    b"-.5",
    b"-1.",
    b"+1",
    b"1e3",
    b"1E3",
    b"--1",
    b"1-",
    b"1..2",
    b"1.2.3",
    b" 1",
    b"1 ",
    b"1,5",
    b"0x10",
    b"\xD9\xA1",
    b"inf",
    b"NaN",
    b"/",
    b":",
];

pub(super) fn literal_text(r: &mut Random) -> Vec<u8> {
    let mut text = Vec::new();
    if r.one_in(3) {
        text.push(b'-');
    }
    let longest = if r.one_in(4) { 15 } else { 4 };
    let whole = 1 + r.below(longest);
    let fraction = match r.below(3) {
        0 => 0,
        1 => r.below(4),
        _ => r.below(15),
    };
    for at in 0..whole + fraction {
        if at == whole {
            text.push(b'.');
        }
        text.push(if r.one_in(3) {
            b'0'
        } else {
            b'0' + r.below(10) as u8
        });
    }
    if r.one_in(5) {
        // A slip of the pen.
        let at = r.below(text.len());
        match r.below(3) {
            0 => text[at] = *r.pick(b".-+e 09/:,"),
            1 => text.insert(at, *r.pick(b".-+e 09/:,")),
            _ => {
                text.remove(at);
            }
        }
    }
    text
}

pub(super) fn literal_case(file: &mut File, text: &[u8]) {
    let mut case = Vec::new();
    case.str(text);
    case.flag(literal(text).is_some());
    if let Some((decimal, minimum)) = literal(text) {
        let text = std::str::from_utf8(text).expect("ASCII");
        let number = FluentNumber::from_str(text).expect("the Rust reads it too");
        assert_eq!(number.value.to_bits(), rust::double(decimal).to_bits());
        let from_rust = number.options.minimum_fraction_digits;
        assert_eq!(from_rust, minimum.map(|n| n as usize));
        decimal_field(&mut case, decimal);
        case.flag(from_rust.is_some());
        case.u8(from_rust.unwrap_or(0) as u8);
    }
    file.case(1, case);
}
