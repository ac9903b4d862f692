//! Formattings and sheets with marks in a text element, a string literal or a
//! string argument, and what they give. Some are paired all the same.

use crate::model::premises::Kind;

pub(super) struct Point {
    pub kind: Kind,
    pub paired: bool,
    pub isolating: bool,
    pub source: &'static str,
    /// The argument `v`.
    pub given: Option<&'static str>,
    pub text: &'static str,
}

const fn point(kind: Kind, paired: bool, source: &'static str, text: &'static str) -> Point {
    Point {
        kind,
        paired,
        isolating: true,
        source,
        given: None,
        text,
    }
}

const fn text(paired: bool, source: &'static str, text: &'static str) -> Point {
    point(Kind::Text, paired, source, text)
}

const fn literal(paired: bool, source: &'static str, text: &'static str) -> Point {
    point(Kind::Literal, paired, source, text)
}

const fn given(
    paired: bool,
    source: &'static str,
    given: &'static str,
    text: &'static str,
) -> Point {
    Point {
        given: Some(given),
        ..point(Kind::Argument, paired, source, text)
    }
}

const fn plain(point: Point) -> Point {
    Point {
        isolating: false,
        ..point
    }
}

pub(super) const MARKED: [Point; 36] = [
    // In text elements.
    text(false, "a = x⟩ { $n }", "x⟩ ⟨2⟩"),
    text(false, "a = ⟨{ $n }", "⟨⟨2⟩"),
    text(false, "a = ⟩", "⟩"),
    // As many of each, but not in a prefix.
    text(false, "a = ⟩⟨", "⟩⟨"),
    text(false, "a = ⟩{ $n }⟨", "⟩⟨2⟩⟨"),
    // Paired by itself, and by what stands around it.
    text(true, "a = ⟨x⟩ { $n }", "⟨x⟩ ⟨2⟩"),
    text(true, "a = x { $n -> *[o] ⟩{ $n }⟨ }", "x ⟨⟩⟨2⟩⟨⟩"),
    text(false, "a = x { $n -> *[o] y⟩ }", "x ⟨y⟩⟩"),
    text(false, "a = x { { b } }\nb = y⟨", "x ⟨y⟨⟩"),
    text(false, "a = x { b.x }\nb = b\n.x = ⟩", "x ⟩"),
    text(false, "a = x { -b }\n-b = ⟨", "x ⟨"),
    // In an entry that is not reached, a variant that is not chosen, a selector.
    text(true, "a = x { $n }\nb = ⟩", "x ⟨2⟩"),
    text(true, "a = x { $n -> [1] ⟩ *[o] y }", "x ⟨y⟩"),
    text(true, "a = x { b -> *[o] y }\nb = ⟩", "x ⟨y⟩"),
    // Behind where the text is cut short, and before it.
    text(true, "a = x { $n -> *[o] { g } } ⟩", "x ⟨[88 w]{h}{g}{$n}⟩"),
    text(false, "a = ⟨ { $n -> *[o] { g } }", "⟨ ⟨[88 w]{h}{g}{$n}⟩"),
    plain(text(false, "a = x⟩{ $n }", "x⟩2")),
    // In string literals: escaped with four and with six digits, and bare.
    literal(false, "a = x { \"\\u2069\" } y", "x ⟩ y"),
    literal(false, "a = x { \"\\U002068\" }", "x ⟨"),
    literal(false, "a = x { \"⟩\" }", "x ⟩"),
    literal(false, "a = x { \"\\u2069\\u2068\" }", "x ⟩⟨"),
    literal(true, "a = x { { \"\\U002069\\u2068\" } }", "x ⟨⟩⟨⟩"),
    literal(false, "a = x { { \"\\\\\\u2069\" } }", "x ⟨\\⟩⟩"),
    literal(false, "a = { -v(n: \"\\u2068\") } y", "⟨ y"),
    literal(false, "a = { { -v(n: \"⟩\") } } y", "⟨⟩⟩ y"),
    literal(true, "a = x { \"\\u2069\" -> *[o] y }", "x ⟨y⟩"),
    literal(true, "a = x { NUMBER(1, \"\\u2069\") }", "x ⟨1⟩"),
    literal(true, "a = x { NUMBER(1, currency: \"⟩\") }", "x ⟨1⟩"),
    plain(literal(false, "a = x { \"\\u2069\" }", "x ⟩")),
    // In string arguments.
    given(false, "a = x { $v }", "⟩", "x ⟨⟩⟩"),
    given(false, "a = x { $v }", "נח⟨", "x ⟨נח⟨⟩"),
    given(false, "a = { $v }", "⟩⟨", "⟩⟨"),
    given(true, "a = x { $v }", "⟩⟨", "x ⟨⟩⟨⟩"),
    given(true, "a = x { $v -> *[o] y }", "⟩", "x ⟨y⟩"),
    given(true, "a = x { $n }", "⟩", "x ⟨2⟩"),
    plain(given(false, "a = x { { $v } }", "⟨", "x ⟨")),
];

/// Sheets, likewise.
pub(super) const MARKED_SHEETS: [(Kind, bool, &str, &str, &str); 8] = [
    // One message opens, the other closes.
    (Kind::Text, true, "o = ⟨\nc = ⟩", "o; c", "⟨⟩"),
    (Kind::Text, false, "o = ⟨\nc = ⟩", "c; o", "⟩⟨"),
    (
        Kind::Text,
        false,
        "o = ⟨\na = x { $n }",
        "a n=1; o; a n=2",
        "x ⟨1⟩⟨x ⟨2⟩",
    ),
    (
        Kind::Text,
        false,
        "c = x { $n -> *[o] ⟩{ g } }",
        "c n=2",
        "x ⟨⟩[88 w]{h}{g}{$n}⟩",
    ),
    (
        Kind::Literal,
        false,
        "v = { \"\\u2068\" }\na = x { $n }",
        "v; a n=2",
        "⟨x ⟨2⟩",
    ),
    (
        Kind::Literal,
        false,
        "v = { \"\\U002069\" }\na = x { $n }",
        "a n=2; v",
        "x ⟨2⟩⟩",
    ),
    (
        Kind::Argument,
        false,
        "a = x { $n }",
        "a n=⟩; a n=⟨",
        "x ⟨⟩⟩x ⟨⟨⟩",
    ),
    (
        Kind::Argument,
        true,
        "a = x { $n }",
        "a n=⟨; a n=⟩",
        "x ⟨⟨⟩x ⟨⟩⟩",
    ),
];
