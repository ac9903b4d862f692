//! A message whose string literals are full of escapes, for the benchmarks: what an
//! escape and each of its hexadecimal digits cost. The same tree is given to the
//! original Rust and to the crate.

use crate::sheet::{id, inline, pattern, Printed};
use fluent_syntax::ast::*;
use harness::case::{Bundle, Item};
use std::fmt;
use weszlagyo::Locale;

/// How many literals the message has. Each letter has two bytes, so its text has 200,
/// and a literal of 80 bytes has room as it stands even at the end of the 512 that are
/// lent.
const COUNT: usize = 10;

/// The letters of a literal that is escaped by the digits 0 to 9 alone.
const BY_DECIMAL_DIGITS: &str = "ŴŵŶŷŴŵŶŷŴŵ";

/// Those of any other, each with one or two of the digits A to F.
const BY_ANY_DIGITS: &str = "ÂÊÎÔÛâêîôû";

/// A message: how the letters of its literals are escaped.
#[derive(Clone, Copy, Debug)]
pub enum Literals {
    /// `\u0174`, with no digit above 9.
    Decimal,
    /// `\u00C2`
    Upper,
    /// `\u00c2`
    Lower,
    /// `\U0000C2` and `\U0000ca` in turn.
    Long,
}

/// The messages that are tried.
pub const ALL: [Literals; 4] = [
    Literals::Decimal,
    Literals::Upper,
    Literals::Lower,
    Literals::Long,
];

impl fmt::Display for Literals {
    fn fmt(&self, f: &mut fmt::Formatter<'_>) -> fmt::Result {
        f.write_str(match self {
            Self::Decimal => r"`\u` and the digits 0 to 9",
            Self::Upper => r"`\u` and any digits, upper case",
            Self::Lower => r"`\u` and any digits, lower case",
            Self::Long => r"`\U` and any digits, upper and lower case in turn",
        })
    }
}

impl Literals {
    /// The message of escapes.
    pub fn printed(self) -> Printed {
        let escapes = self.letters().map(|(at, letter)| self.escape(at, letter));
        made(escapes.collect())
    }

    /// The same text without an escape, the bytes themselves.
    pub fn in_bytes(self) -> Printed {
        made(self.letters().map(|(_, letter)| letter).collect())
    }

    /// How many escapes the message has.
    pub fn escapes(self) -> usize {
        COUNT * self.letters().count()
    }

    /// How many digits they have.
    pub fn digits(self) -> usize {
        self.digits_that(|_| true)
    }

    /// How many of these are letters, A to F or a to f.
    pub fn digits_above_9(self) -> usize {
        self.digits_that(|digit| digit.is_ascii_alphabetic())
    }

    fn digits_that(self, holds: impl Fn(char) -> bool) -> usize {
        let digits = self.letters().map(|(at, letter)| self.hex(at, letter));
        let held = digits.map(|digits| digits.chars().filter(|&digit| holds(digit)).count());
        COUNT * held.sum::<usize>()
    }

    /// The letters of a literal, and the place of each.
    fn letters(self) -> impl Iterator<Item = (usize, char)> {
        let letters = match self {
            Self::Decimal => BY_DECIMAL_DIGITS,
            Self::Upper | Self::Lower | Self::Long => BY_ANY_DIGITS,
        };
        letters.chars().enumerate()
    }

    /// The digits of the letter at that place.
    fn hex(self, at: usize, letter: char) -> String {
        let value = u32::from(letter);
        match self {
            Self::Decimal | Self::Upper => format!("{value:04X}"),
            Self::Lower => format!("{value:04x}"),
            Self::Long if at.is_multiple_of(2) => format!("{value:06X}"),
            Self::Long => format!("{value:06x}"),
        }
    }

    fn escape(self, at: usize, letter: char) -> String {
        let kind = match self {
            Self::Decimal | Self::Upper | Self::Lower => 'u',
            Self::Long => 'U',
        };
        format!(r"\{kind}{}", self.hex(at, letter))
    }
}

/// The message `a`: that literal in so many placeables.
fn made(literal: String) -> Printed {
    let value = inline(InlineExpression::StringLiteral { value: literal });
    let body = vec![Entry::Message(Message {
        id: id("a"),
        value: Some(pattern(vec![value; COUNT])),
        attributes: vec![],
    })];
    Printed {
        bundle: Bundle {
            locale: Locale::Cy.number(),
            isolating: false,
            items: vec![Item::Plain(Resource { body })],
        },
        messages: vec![("a".into(), vec![])],
    }
}
