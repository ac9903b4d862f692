//! Escapes at every place that a string literal may have, with the workspace figure
//! and the text, worked out by hand. A literal with a backslash takes as many bytes of
//! the workspace as its text has where it is a selector or an argument, and none where
//! it is written.

/// What may be asked for: `n` is 1, and `s` is a text of six letters.
pub(super) const TEXT: &str = r"\u0175";

/// With isolation. ⟨ and ⟩ stand for U+2068 and U+2069.
#[rustfmt::skip]
pub(super) const ISOLATING: [(usize, &str, &str); 38] = [
    // Written: alone, among text, which reads no escapes, and in inline placeables.
    (0, r#"a = { "d\u0175r" }"#, "dŵr"),
    (0, r#"a = \u0175 { "\u0175" } \\"#, "\\u0175 ŵ \\\\"),
    (0, r#"a = { "\u0175" }{ "\U000177" }"#, "ŵŷ"),
    (0, r#"a = { { "\u0175" } }"#, "ŵ"),
    (0, r#"a = x{ { "\u0175" } }"#, "x⟨ŵ⟩"),
    (0, r#"a = { "\uD800" }{ "\U110000" }"#, "\u{FFFD}\u{FFFD}"),
    (0, r#"a = { "\u2068" }{ "\u2069" }"#, "⟨⟩"),
    (0, r#"a = { $s }"#, r"\u0175"),
    (0, r#"a = { $s } { "\u0175" }"#, r"⟨\u0175⟩ ŵ"),
    // By references, and in variants.
    (0, "a = { b } { b.x }\nb = { \"m\\u00f4r\" }\n.x = { \"M\\u00D4R\" }", "môr MÔR"),
    (0, "a = { -t }\n-t = { \"t\\u0177\" }", "tŷ"),
    (0, r#"a = { $n -> [one] { "\u0175" } *[other] { "\u0177" } }"#, "ŵ"),
    (0, r#"a = { 2 -> [one] { "\u0175" } *[other] { "\u0177" } }"#, "ŷ"),
    // As selectors.
    (0, r#"a = { "one" -> [one] 1 *[o] 2 }"#, "1"),
    (3, r#"a = { "\u006Fne" -> [one] 1 *[o] 2 }"#, "1"),
    (3, r#"a = { "o\u006e\u0065" -> [one] 1 *[o] 2 }"#, "1"),
    (3, r#"a = { "\U00006f\U00006E\U000065" -> [one] 1 *[o] 2 }"#, "1"),
    (3, r#"a = { "\u004Fne" -> [one] 1 *[o] 2 }"#, "2"),
    (3, r#"a = { "\u006fnf" -> [one] 1 [onf] 3 *[o] 2 }"#, "3"),
    (4, r#"a = { "\u0175yn" -> [wyn] 1 *[o] 2 }"#, "2"),
    (3, r#"a = { "\uD800" -> [D800] 1 *[o] 2 }"#, "2"),
    (4, r#"a = { "\U01F40B" -> [x] 1 *[o] 2 }"#, "2"),
    (1, r#"a = { "\u0031" -> [1] 1 [one] 3 *[o] 2 }"#, "2"),
    (1, r#"a = { "\u0000" -> [o] 1 *[p] 2 }"#, "2"),
    (1, r#"a = { "\\" -> [o] 1 *[p] 2 }"#, "2"),
    (3, r#"a = { { "\u006fne" } -> [one] 1 *[o] 2 }"#, "1"),
    (3, "a = { b -> [one] 1 *[o] 2 }\nb = { \"on\\u0065\" }", "1"),
    // As arguments of terms: named ones are variables there, others are lost.
    (2, "a = { -t(s: \"\\u0175\") }\n-t = { $s }", "ŵ"),
    (5, "a = { -t(s: \"\\u0175\", r: \"\\u20aC\") }\n-t = { $s }{ $r }", "⟨ŵ⟩⟨€⟩"),
    (2, "a = { -t(\"\\u0175\") }\n-t = x", "x"),
    (6, "a = { -t(\"\\U01f40b\", s: \"\\u0175\") }\n-t = { $s }", "ŵ"),
    (3, "a = { -t(s: \"\\u006Fne\") }\n-t = { $s -> [one] 1 *[o] 2 }", "1"),
    // As arguments of NUMBER.
    (7, r#"a = { NUMBER(2, type: "\u006frdinal") -> [two] 2 *[other] o }"#, "2"),
    (7, r#"a = { NUMBER(2, type: "ordina\U00006C") -> [two] 2 *[other] o }"#, "2"),
    (7, r#"a = { NUMBER(2, type: "ordina\u004C") -> [two] 2 *[other] o }"#, "o"),
    (2, r#"a = { NUMBER(5, "\u0175") }"#, "5"),
    (1, r#"a = { NUMBER("\u0035") }"#, "NUMBER()"),
    (1, r#"a = { NUMBER(5, minimumFractionDigits: "\u0032") }"#, "5"),
];

/// Without. Where a term is the selector, its text is made in front of its argument: 4
/// bytes and 2, 6 and 3.
#[rustfmt::skip]
pub(super) const PLAIN: [(usize, &str, &str); 4] = [
    (0, r#"a = x{ { "\u0175" } }{ $n }"#, "xŵ1"),
    (6, "a = { -t(s: \"\\u0175\") -> [x] 1 *[o] 2 }\n-t = { $s }{ $s }", "2"),
    (9, "a = { -t(s: \"\\u006Fne\") -> [oneone] 1 *[o] 2 }\n-t = { $s }{ $s }", "1"),
    (5, "a = { -t(s: \"\\u0175\", r: \"\\u20AC\") }\n-t = { $s }{ $r }", "ŵ€"),
];

/// What the sheets are made of.
pub(super) const SOURCE: &str = r#"
    a = { "d\u0175r" }
    .x = { "M\u00D4R" }
    b = { "\u006Fne" -> [one] { "\U000177" } *[o] o }
    c = { -t(s: "\U01f40B") }{ -t(s: "\u006Fne") }
    -t = { $s -> [one] 1 *[o] { $s } }
    d = { $s }"#;

/// Messages of a sheet, with their figure and text.
pub(super) const SHEETS: [(usize, &str, &str); 8] = [
    (0, "a", "dŵr"),
    (0, "a; a.x; a", "dŵrMÔRdŵr"),
    (3, "b", "ŷ"),
    (3, "a; b; a.x; b", "dŵrŷMÔRŷ"),
    (4, "c", "\u{1F40B}1"),
    (4, "b; c; b", "ŷ\u{1F40B}1ŷ"),
    (0, "d s=\\u0175; a", "\\u0175dŵr"),
    (4, "c; d s=ŵ; a; c", "\u{1F40B}1ŵdŵr\u{1F40B}1"),
];
