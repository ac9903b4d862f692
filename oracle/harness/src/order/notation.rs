//! A short notation for arguments images, well-formed or not.
//!
//! Words with blanks between them. `a` is none, `a=x` a text, `a=25/1` or `a=-0/2`
//! a number with its digits and scale. `a{255}` is a name of 255 letters. A word with `!` is
//! an argument that is malformed, one with `+` makes the whole image so.

use crate::bytes::Write;

/// The image of some words.
pub fn image(words: &str) -> Vec<u8> {
    let mut count = 0;
    let mut arguments = Vec::new();
    let (mut version, mut more, mut longer) = (1, 0, 0);
    for word in words.split_whitespace() {
        match word {
            "+version" => version = 2,
            "+count" => more = 1,
            "+length" => longer = 1,
            "+left" => arguments.u8(0),
            _ => {
                count += 1;
                argument(&mut arguments, word);
            }
        }
    }
    let mut out = Vec::new();
    out.u32(7 + arguments.len() + longer);
    out.u8(version);
    out.u16(count + more);
    out.raw(&arguments);
    out
}

fn argument(out: &mut Vec<u8>, word: &str) {
    let (name, value) = match word.split_once('=') {
        Some((name, value)) => (name, Some(value)),
        None => (word, None),
    };
    match name {
        "!name" => out.str("1"),
        "!empty" => out.str(""),
        _ if name.starts_with('!') => out.str("z"),
        _ => out.str(long(name)),
    }
    match (name, value) {
        ("!name" | "!empty", _) => out.u8(3),
        ("!kind", _) => out.u8(4),
        ("!text", _) => out.raw(&[1, 0, 1, 0xFF]),
        ("!cut", _) => out.raw(&[1, 0, 2, b'x']),
        ("!sign", _) => number(out, 2, 1, 0),
        ("!scale", _) => number(out, 0, 1, 15),
        ("!digits", _) => number(out, 0, 1_000_000_000_000_000, 0),
        (_, None) => out.u8(3),
        (_, Some(value)) => match value.split_once('/') {
            Some((digits, scale)) => {
                let magnitude = digits.trim_start_matches('-');
                let sign = u8::from(magnitude != digits);
                let magnitude = magnitude.parse().expect("digits");
                number(out, sign, magnitude, scale.parse().expect("a scale"));
            }
            None => {
                out.u8(1);
                out.str(value);
            }
        },
    }
}

fn number(out: &mut Vec<u8>, sign: u8, digits: u64, scale: u8) {
    out.raw(&[2, sign]);
    out.u64(digits);
    out.u8(scale);
}

/// A name in which `a{N}` stands for N times a.
fn long(name: &str) -> String {
    let Some((before, rest)) = name.split_once('{') else {
        return name.into();
    };
    let (count, behind) = rest.split_once('}').expect("its end");
    let (first, letter) = before.split_at(before.len() - 1);
    let all = letter.repeat(count.parse().expect("a number"));
    format!("{first}{all}{behind}")
}
