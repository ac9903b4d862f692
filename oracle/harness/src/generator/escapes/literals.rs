//! String literals: escapes of every kind, among other characters.

use crate::random::Random;

/// The letters with a circumflex that Welsh has.
const WELSH: [u32; 14] = [
    0x175, 0x177, 0xE2, 0xEA, 0xEE, 0xF4, 0xFB, 0x174, 0x176, 0xC2, 0xCA, 0xCE, 0xD4, 0xDB,
];

/// Values at borders; each comes itself or one less.
const BORDERS: [u32; 12] = [
    0x1, 0x80, 0x800, 0xD800, 0xDC00, 0xE000, 0xFFFD, 0x10000, 0x20000, 0x100000, 0x110000,
    0xFFFFFF,
];

/// What stands between escapes; some of it looks like one.
const AMONG: [&str; 14] = [
    "x",
    " ",
    "d",
    "0041",
    "u0041",
    "ŵ",
    "€",
    "\u{1F40B}",
    "F",
    "\\\\",
    "\\\"",
    "\\\\u0041",
    "\\\\U01f40b",
    "\\\\\\\\",
];

/// A literal of one to seven parts, most of them escapes; now and then of more.
pub fn literal(r: &mut Random) -> String {
    let mut out = String::new();
    let count = match r.one_in(60) {
        true => 15 + r.below(25),
        false => 1 + r.below(7),
    };
    for _ in 0..count {
        match r.below(4) {
            0 => out += *r.pick(&AMONG),
            _ => {
                let value = value(r);
                out += &escape(r, value);
            }
        }
    }
    out
}

/// A value of up to six digits.
pub fn value(r: &mut Random) -> u32 {
    let below = |r: &mut Random, n: usize| r.below(n) as u32;
    match r.below(12) {
        0..=2 => *r.pick(&WELSH),
        3 => below(r, 0x80),
        4 => 0x80 + below(r, 0x780),
        5 => below(r, 0x1_0000),
        6 => 0xD7F0 + below(r, 0x820),
        7 => 0x1_0000 + below(r, 0x10_0000),
        8 => below(r, 0x100_0000),
        9 => *r.pick(&BORDERS) - below(r, 2),
        // that begin with a letter
        10 => 0xAAAA + below(r, 0x5556),
        _ => 0x0A_AAAA + below(r, 0x5_5556),
    }
}

/// An escape of a value, its letters capital and small by chance.
pub fn escape(r: &mut Random, value: u32) -> String {
    let (letter, count) = match value < 0x1_0000 && r.one_in(2) {
        true => ('u', 4),
        false => ('U', 6),
    };
    let digits = format!("{value:0count$X}");
    let digits = digits.chars().map(|digit| match r.one_in(2) {
        true => digit.to_ascii_lowercase(),
        false => digit,
    });
    let digits: String = digits.collect();
    format!("\\{letter}{digits}")
}

/// A word with some of its letters as escapes, one at least.
pub fn spelled(r: &mut Random, word: &str) -> String {
    let must = r.below(word.chars().count());
    let mut out = String::new();
    for (at, letter) in word.chars().enumerate() {
        match at == must || r.one_in(4) {
            true => out += &escape(r, letter.into()),
            false => out.push(letter),
        }
    }
    out
}
