//! String literals full of escapes (document 02's Card 5, by which no answer changes):
//! the model's reading, the stand-in's and Rust's own characters are held to one
//! another on every value.
#![forbid(unsafe_code)]

use fluent_syntax::unicode::unescape_unicode_to_string;
use harness::model::escapes::{digit, is_scalar, unescape, utf8, Reading, DIGITS, READING};
use harness::vectors::escapes::{make, make_by};
use std::panic::AssertUnwindSafe;

/// How the letters among the digits of a value are written.
#[derive(Clone, Copy, Debug)]
enum Letters {
    Upper,
    Lower,
    /// In turn, beginning with a small one where the value is odd.
    Mixed,
}

const LETTERS: [Letters; 3] = [Letters::Upper, Letters::Lower, Letters::Mixed];

/// Writes a value as an escape of so many digits.
fn escape(out: &mut String, value: u32, count: u32, letters: Letters) {
    out.push('\\');
    out.push(if count == 4 { 'u' } else { 'U' });
    let mut small = value % 2 == 1;
    for at in (0..count).rev() {
        let digit = char::from_digit(value >> (4 * at) & 15, 16).expect("below 16");
        out.push(match letters {
            Letters::Upper => digit.to_ascii_uppercase(),
            Letters::Lower => digit,
            Letters::Mixed if small => digit,
            Letters::Mixed => digit.to_ascii_uppercase(),
        });
        small ^= digit.is_ascii_alphabetic();
    }
}

/// All values below a power of 16 as escapes of so many digits, 4,096 to a literal:
/// the model and the stand-in read the characters that they are.
fn all_values(count: u32) {
    let (mut literal, mut text) = (String::new(), String::new());
    for letters in LETTERS {
        for first in (0..16u32.pow(count)).step_by(4_096) {
            literal.clear();
            text.clear();
            for value in first..first + 4_096 {
                escape(&mut literal, value, count, letters);
                text.push(char::from_u32(value).unwrap_or('\u{FFFD}'));
            }
            let by_model = unescape(literal.as_bytes()).expect("well-formed");
            assert!(by_model == text.as_bytes(), "{letters:?} from {first:X} on");
            let by_standin = unescape_unicode_to_string(&literal);
            assert!(by_standin == text, "{letters:?} from {first:X} on");
        }
    }
}

#[test]
fn all_values_of_four_digits() {
    all_values(4);
}

#[test]
fn all_values_of_six_digits() {
    all_values(6);
}

/// Of all bytes these 22 are digits, with these values.
#[test]
fn the_digits() {
    let std = |byte: u8| char::from(byte).to_digit(16);
    let digits = (0..=255).filter(|byte| digit(*byte).is_some());
    assert_eq!(digits.collect::<Vec<u8>>(), DIGITS);
    for byte in 0..=255u8 {
        assert_eq!(digit(byte), std(byte), "{byte}");
    }
}

/// The bytes of every scalar are Rust's.
#[test]
fn the_bytes_of_scalars() {
    let mut bytes = [0; 4];
    for value in 0..=0x11_0000 {
        let scalar = char::from_u32(value);
        assert_eq!(is_scalar(value), scalar.is_some(), "{value:X}");
        if let Some(scalar) = scalar {
            assert_eq!(utf8(value), scalar.encode_utf8(&mut bytes).as_bytes());
        }
    }
}

/// Writing the vectors with this reading stops.
fn stops(reading: Reading) -> bool {
    let make = || make_by(100, 240, reading);
    std::panic::catch_unwind(AssertUnwindSafe(make)).is_err()
}

#[test]
fn wrong_readings_stop_the_vectors() {
    let nine_for_a = |byte: u8| match byte {
        b'A' | b'a' => Some(9),
        _ => digit(byte),
    };
    let sixteen_for_g = |byte: u8| match byte {
        b'g' => Some(16),
        _ => digit(byte),
    };
    let surrogates = |value: u32| utf8(value & 0x1F_FFFF);
    assert!(!stops(READING));
    assert!(stops(Reading {
        digit: &nine_for_a,
        ..READING
    }));
    assert!(stops(Reading {
        digit: &sixteen_for_g,
        ..READING
    }));
    assert!(stops(Reading {
        written: &surrogates,
        ..READING
    }));
}

/// And with a wrong stand-in.
#[test]
fn a_wrong_standin_is_noticed() {
    fluent_syntax::unicode::plant_wrong_escape(true);
    assert!(stops(READING));
}

#[test]
fn other_seeds() {
    for seed in 100..103 {
        let file = make(seed, 2400);
        assert!((4_000..4_500).contains(&file.count()));
        assert!(file.operations()[&23] > 2_500);
    }
}
