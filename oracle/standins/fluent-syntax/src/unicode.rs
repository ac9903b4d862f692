//! Reading the escapes of a string literal, after document 01.

use std::borrow::Cow;
use std::cell::Cell;
use std::fmt;

thread_local! {
    static WRONG: Cell<bool> = const { Cell::new(false) };
}

/// For the test that a wrong stand-in is noticed: on this thread, a value that
/// is no Unicode scalar reads as `?`.
pub fn plant_wrong_escape(on: bool) {
    WRONG.set(on);
}

pub fn unescape_unicode<W: fmt::Write>(w: &mut W, input: &str) -> fmt::Result {
    let mut rest = input;
    while let Some(at) = rest.find('\\') {
        w.write_str(&rest[..at])?;
        let escape = &rest[at + 1..];
        let digits = match escape.as_bytes().first() {
            Some(b'u') => 4,
            Some(b'U') => 6,
            _ => 0,
        };
        if digits == 0 {
            // A backslash or a quotation mark, for itself.
            w.write_str(&escape[..1])?;
        } else {
            let value = u32::from_str_radix(&escape[1..1 + digits], 16).unwrap_or(u32::MAX);
            let none = if WRONG.get() { '?' } else { '\u{FFFD}' };
            w.write_char(char::from_u32(value).unwrap_or(none))?;
        }
        rest = &escape[1 + digits..];
    }
    w.write_str(rest)
}

pub fn unescape_unicode_to_string(input: &str) -> Cow<'_, str> {
    if !input.contains('\\') {
        return Cow::Borrowed(input);
    }
    let mut text = String::new();
    unescape_unicode(&mut text, input).expect("a string takes all text");
    Cow::Owned(text)
}
