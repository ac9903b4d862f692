//! Reading string literals by document 01's words: "a backslash is followed by `\`,
//! `"`, `u` with 4 or `U` with 6 hexadecimal digits; a value that is no Unicode scalar
//! reads as U+FFFD". A digit's value is its place in a row of sixteen, and the bytes
//! of a scalar are those of the Unicode Standard's table; no other reading of the
//! oracle does it so.

/// The digits in the order of their values.
const UPPER: &[u8; 16] = b"0123456789ABCDEF";
const LOWER: &[u8; 16] = b"0123456789abcdef";

/// All digits: `0` to `9`, `A` to `F`, `a` to `f`.
pub const DIGITS: &[u8; 22] = b"0123456789ABCDEFabcdef";

/// What a value that is no scalar reads as.
pub const REPLACEMENT: u32 = 0xFFFD;

/// The steps of a reading; tests put wrong ones in the place of some.
#[derive(Clone, Copy)]
pub struct Reading<'f> {
    /// The value of a digit; none if the byte is no digit.
    pub digit: &'f dyn Fn(u8) -> Option<u32>,
    /// The value of an escape by those of its digits.
    pub value: &'f dyn Fn(&[u32]) -> u32,
    /// What is written for a value.
    pub written: &'f dyn Fn(u32) -> Vec<u8>,
}

/// Document 01's.
pub const READING: Reading<'static> = Reading {
    digit: &digit,
    value: &value,
    written: &written,
};

/// The text of a string literal; `None` if an escape is not document 01's.
pub fn unescape(literal: &[u8]) -> Option<Vec<u8>> {
    READING.text(literal)
}

pub fn digit(byte: u8) -> Option<u32> {
    let place = |row: &[u8; 16]| row.iter().position(|digit| *digit == byte);
    place(UPPER).or_else(|| place(LOWER)).map(|at| at as u32)
}

pub fn value(digits: &[u32]) -> u32 {
    let mut sum = 0;
    for digit in digits {
        sum = sum * 16 + digit;
    }
    sum
}

pub fn written(value: u32) -> Vec<u8> {
    match is_scalar(value) {
        true => utf8(value),
        false => utf8(REPLACEMENT),
    }
}

pub fn is_scalar(value: u32) -> bool {
    value <= 0xD7FF || (0xE000..=0x10FFFF).contains(&value)
}

/// The bytes of a value below 200000 (hexadecimal) by table 3-6 of the Unicode
/// Standard.
pub fn utf8(value: u32) -> Vec<u8> {
    let bits = |shift: u32, count: u32| (value >> shift & ((1 << count) - 1)) as u8;
    match value {
        0..=0x7F => vec![bits(0, 7)],
        0x80..=0x7FF => vec![0b1100_0000 | bits(6, 5), 0b1000_0000 | bits(0, 6)],
        0x800..=0xFFFF => vec![
            0b1110_0000 | bits(12, 4),
            0b1000_0000 | bits(6, 6),
            0b1000_0000 | bits(0, 6),
        ],
        _ => vec![
            0b1111_0000 | bits(18, 3),
            0b1000_0000 | bits(12, 6),
            0b1000_0000 | bits(6, 6),
            0b1000_0000 | bits(0, 6),
        ],
    }
}

/// A part of a string literal.
enum Part<'l> {
    /// A byte for itself, with a backslash before it or not.
    Byte(u8),
    /// The digits of an escape.
    Digits(&'l [u8]),
}

/// The first part of a literal that is not empty, and what follows.
fn part(literal: &[u8]) -> Option<(Part<'_>, &[u8])> {
    let (first, rest) = literal.split_first()?;
    if *first != b'\\' {
        return Some((Part::Byte(*first), rest));
    }
    let (letter, rest) = rest.split_first()?;
    let count = match letter {
        b'\\' | b'"' => return Some((Part::Byte(*letter), rest)),
        b'u' => 4,
        b'U' => 6,
        _ => return None,
    };
    let (digits, rest) = rest.split_at_checked(count)?;
    Some((Part::Digits(digits), rest))
}

impl Reading<'_> {
    /// The text of a string literal; `None` if an escape is not document 01's.
    pub fn text(&self, literal: &[u8]) -> Option<Vec<u8>> {
        let mut text = Vec::new();
        let mut rest = literal;
        while !rest.is_empty() {
            let (first, after) = part(rest)?;
            match first {
                Part::Byte(byte) => text.push(byte),
                Part::Digits(digits) => {
                    let digits: Option<Vec<u32>> =
                        digits.iter().map(|byte| (self.digit)(*byte)).collect();
                    text.extend((self.written)((self.value)(&digits?)));
                }
            }
            rest = after;
        }
        Some(text)
    }
}

/// The escapes of some literals, counted.
#[derive(Clone, Copy, Debug, Default, PartialEq, Eq)]
pub struct Escapes {
    /// With `u`, and with `U`.
    pub short: usize,
    pub long: usize,
    /// Those whose value is no scalar.
    pub replaced: usize,
    /// Their digits, in the order of `DIGITS`.
    pub digits: [usize; 22],
}

impl Escapes {
    /// Those of a literal, too; gives its text.
    pub fn read(&mut self, literal: &[u8]) -> Option<Vec<u8>> {
        let text = unescape(literal)?;
        let mut rest = literal;
        while let Some((first, after)) = part(rest) {
            if let Part::Digits(digits) = first {
                self.count(digits);
            }
            rest = after;
        }
        Some(text)
    }

    fn count(&mut self, digits: &[u8]) {
        match digits.len() {
            4 => self.short += 1,
            _ => self.long += 1,
        }
        let values: Vec<u32> = digits.iter().filter_map(|byte| digit(*byte)).collect();
        self.replaced += usize::from(!is_scalar(value(&values)));
        for (sum, digit) in self.digits.iter_mut().zip(DIGITS) {
            *sum += digits.iter().filter(|byte| *byte == digit).count();
        }
    }

    /// Those of other literals, too.
    pub fn add(&mut self, other: &Self) {
        self.short += other.short;
        self.long += other.long;
        self.replaced += other.replaced;
        for (sum, n) in self.digits.iter_mut().zip(other.digits) {
            *sum += n;
        }
    }

    pub fn all(&self) -> usize {
        self.short + self.long
    }

    /// How often the rarest digit comes.
    pub fn fewest(&self) -> usize {
        self.digits.into_iter().min().unwrap_or(0)
    }
}
