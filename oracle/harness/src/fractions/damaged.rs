//! Stores and arguments with some bytes changed, and what they give. The card adds no
//! layout: what was malformed is so still, and what is well-formed is written by it.

/// Where bytes are changed.
#[derive(Clone, Copy, Debug, PartialEq)]
pub enum Part {
    Store,
    Arguments,
}

/// A source; what is changed, which stands there once, and to what; the text, or the
/// refusal.
pub(super) type Change = (
    &'static str,
    Part,
    &'static [u8],
    &'static [u8],
    Result<&'static str, u8>,
);

const LITERAL: &str = "a = { NUMBER(5, min: 0) }";
const FRACTION: &str = "a = { NUMBER(5.0, min: 0) }";
const VARIABLE: &str = "a = { NUMBER($n, min: 0) }";

/// The number 5 as an argument: sign, eight bytes, scale.
const FIVE: &[u8] = b"n\x02\0\0\0\0\0\0\0\0\x05\0";

#[rustfmt::skip]
pub(super) const CHANGES: [Change; 40] = [
    // The literal 5.
    (LITERAL, Part::Store, b"\0\x015", b"\0\x016", Ok("6")),
    (LITERAL, Part::Store, b"\0\x015", b"\0\x010", Ok("0")),
    (LITERAL, Part::Store, b"\0\x015", b"\0\x01x", Err(4)),
    (LITERAL, Part::Store, b"\0\x015", b"\0\x01.", Err(4)),
    (LITERAL, Part::Store, b"\0\x015", b"\0\x01-", Err(4)),
    (LITERAL, Part::Store, b"\0\x015", b"\0\x01:", Err(4)),
    (LITERAL, Part::Store, b"\x02\0\x015", b"\x01\0\x015", Ok("NUMBER()")),
    // The minimum 0, its name and its kind.
    (LITERAL, Part::Store, b"\0\x010", b"\0\x011", Ok("5.0")),
    (LITERAL, Part::Store, b"\0\x010", b"\0\x019", Ok("5.000000000")),
    (LITERAL, Part::Store, b"\0\x010", b"\0\x01-", Err(4)),
    (LITERAL, Part::Store, b"\0\x010", b"\0\x01.", Err(4)),
    (LITERAL, Part::Store, b"s\x02\0\x010", b"s\x01\0\x010", Ok("5")),
    (LITERAL, Part::Store, b"s\x02\0\x010", b"s\x03\0\x010", Err(4)),
    (LITERAL, Part::Store, b"minimum", b"Minimum", Ok("5")),
    (LITERAL, Part::Store, b"minimum", b"maximum", Ok("5")),
    (LITERAL, Part::Store, b"minimum", b"2inimum", Err(4)),
    // The call, and the function.
    (LITERAL, Part::Store, b"\x03\0\x06NUMBER", b"\x03\0\x06NUMBEX", Ok("{NUMBEX()}")),
    (LITERAL, Part::Store, b"\x01\0\x06NUMBER", b"\x01\0\x06NUMBEX", Ok("{NUMBER()}")),
    (LITERAL, Part::Store, b"\x01\0\x06NUMBER", b"\x02\0\x06NUMBER", Err(4)),
    // A literal with zeros behind the dot.
    (FRACTION, Part::Store, b"5.0", b"5.1", Ok("5.1")),
    (FRACTION, Part::Store, b"5.0", b"500", Ok("500")),
    (FRACTION, Part::Store, b"5.0", b"-50", Ok("-50")),
    (FRACTION, Part::Store, b"5.0", b"0.0", Ok("0")),
    (FRACTION, Part::Store, b"5.0", b"50.", Err(4)),
    (FRACTION, Part::Store, b"5.0", b".50", Err(4)),
    (FRACTION, Part::Store, b"5.0", b"5..", Err(4)),
    (FRACTION, Part::Store, b"5.0", b"5. ", Err(4)),
    (FRACTION, Part::Store, b"\x02\0\x035.0", b"\x02\0\x035.\0", Err(4)),
    // The argument 5.
    (VARIABLE, Part::Arguments, FIVE, b"n\x02\x01\0\0\0\0\0\0\0\x05\0", Ok("-5")),
    (VARIABLE, Part::Arguments, FIVE, b"n\x02\x02\0\0\0\0\0\0\0\x05\0", Err(13)),
    (VARIABLE, Part::Arguments, FIVE, b"n\x02\0\0\0\0\0\0\0\0\x05\x01", Ok("0.5")),
    (VARIABLE, Part::Arguments, FIVE, b"n\x02\0\0\0\0\0\0\0\0\x05\x0E", Ok("0.00000000000005")),
    (VARIABLE, Part::Arguments, FIVE, b"n\x02\0\0\0\0\0\0\0\0\x05\x0F", Err(13)),
    (VARIABLE, Part::Arguments, FIVE, b"n\x02\0\0\0\0\0\0\0\0\x32\0", Ok("50")),
    (VARIABLE, Part::Arguments, FIVE, b"n\x02\0\0\0\0\0\0\0\0\x32\x01", Err(19)),
    (VARIABLE, Part::Arguments, FIVE, b"n\x02\x01\0\0\0\0\0\0\0\0\0", Ok("-0")),
    (VARIABLE, Part::Arguments, FIVE, b"n\x02\0\0\0\0\0\0\0\0\0\x01", Err(19)),
    (VARIABLE, Part::Arguments, FIVE, b"n\x02\0\0\x10\0\0\0\0\0\x05\0", Err(13)),
    (VARIABLE, Part::Arguments, FIVE, b"n\x03\0\0\0\0\0\0\0\0\x05\0", Err(13)),
    (VARIABLE, Part::Arguments, FIVE, b"m\x02\0\0\0\0\0\0\0\0\x05\0", Ok("NUMBER()")),
];
