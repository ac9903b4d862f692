//! Stores with some bytes of an escape changed, and what they give.

/// A source; what is changed in its store, which stands there once, and to what; the
/// text, or the refusal.
pub(super) type Change = (
    &'static str,
    &'static [u8],
    &'static [u8],
    Result<&'static str, u8>,
);

const SHORT: &str = r#"a = { "\u0175" }"#;
const LONG: &str = r#"a = { "\U00E000" }"#;
const TEXT: &str = r"a = \u0175";
const SELECTOR: &str = r#"a = { "\u006Fne" -> [one] 1 *[o] 2 }"#;

#[rustfmt::skip]
pub(super) const CHANGES: [Change; 53] = [
    // A digit for a digit.
    (SHORT, b"0175", b"0177", Ok("ŷ")),
    (SHORT, b"0175", b"0174", Ok("Ŵ")),
    (SHORT, b"0175", b"00F5", Ok("õ")),
    (SHORT, b"0175", b"00f5", Ok("õ")),
    (SHORT, b"0175", b"017A", Ok("ź")),
    (SHORT, b"0175", b"017a", Ok("ź")),
    (SHORT, b"0175", b"0041", Ok("A")),
    (SHORT, b"0175", b"0000", Ok("\0")),
    (SHORT, b"0175", b"2175", Ok("\u{2175}")),
    (SHORT, b"0175", b"D7FF", Ok("\u{D7FF}")),
    (SHORT, b"0175", b"D800", Ok("\u{FFFD}")),
    (SHORT, b"0175", b"dfff", Ok("\u{FFFD}")),
    (SHORT, b"0175", b"E000", Ok("\u{E000}")),
    (LONG, b"00E000", b"00e000", Ok("\u{E000}")),
    (LONG, b"00E000", b"00D000", Ok("\u{D000}")),
    (LONG, b"00E000", b"00D800", Ok("\u{FFFD}")),
    (LONG, b"00E000", b"01D800", Ok("\u{1D800}")),
    (LONG, b"00E000", b"10FFFF", Ok("\u{10FFFF}")),
    (LONG, b"00E000", b"10ffff", Ok("\u{10FFFF}")),
    (LONG, b"00E000", b"110000", Ok("\u{FFFD}")),
    (LONG, b"00E000", b"20E000", Ok("\u{FFFD}")),
    (LONG, b"00E000", b"FFFFFF", Ok("\u{FFFD}")),
    // A digit for what is none.
    (SHORT, b"0175", b"017/", Err(4)),
    (SHORT, b"0175", b"017:", Err(4)),
    (SHORT, b"0175", b"017@", Err(4)),
    (SHORT, b"0175", b"017G", Err(4)),
    (SHORT, b"0175", b"017`", Err(4)),
    (SHORT, b"0175", b"017g", Err(4)),
    (SHORT, b"0175", b"017\xB5", Err(4)),
    (SHORT, b"0175", b"01\xC5\xB5", Err(4)),
    (SHORT, b"0175", b"g175", Err(4)),
    (SHORT, b"0175", b"01 5", Err(4)),
    (SHORT, b"0175", b"\x00175", Err(4)),
    (LONG, b"00E000", b"0GE000", Err(4)),
    (LONG, b"00E000", b"@0E000", Err(4)),
    (LONG, b"00E000", b"00g000", Err(4)),
    (LONG, b"00E000", b"00E00:", Err(4)),
    (LONG, b"00E000", b"00\xC5000", Err(4)),
    // The letter and the backslash.
    (SHORT, b"\\u", b"\\U", Err(4)),
    (SHORT, b"\\u", b"\\x", Err(4)),
    (SHORT, b"\\u", b"\\\\", Ok("\\0175")),
    (SHORT, b"\\u", b"\\\"", Ok("\"0175")),
    (SHORT, b"\\u", b"xu", Ok("xu0175")),
    (SHORT, b"0175", b"017\\", Err(4)),
    (LONG, b"\\U", b"\\u", Ok("\u{E0}00")),
    (LONG, b"\\U", b"\\V", Err(4)),
    (LONG, b"\\U00E000", b"\\u00E0\\\\", Ok("\u{E0}\\")),
    (LONG, b"\\U00E000", b"\\u00E00\\", Err(4)),
    // In text there are no escapes.
    (TEXT, b"0175", b"017g", Ok("\\u017g")),
    (TEXT, b"\\u", b"\\x", Ok("\\x0175")),
    // In a selector the text decides.
    (SELECTOR, b"006F", b"006f", Ok("1")),
    (SELECTOR, b"006F", b"006E", Ok("2")),
    (SELECTOR, b"006F", b"006G", Err(4)),
];
