//! Numbers in all places: their figures, sources and texts. The figure is the bytes
//! of the workspace; with a last dot it would be one more for each number in it that
//! has a minimum of 0 and no fraction.

/// With isolation.
#[rustfmt::skip]
pub(super) const ISOLATING: [(usize, &str, &str); 66] = [
    // Other options say nothing about the text.
    (
        0,
        "a = { NUMBER(5, min: 0, maximumFractionDigits: 3, minimumIntegerDigits: 4, style: \"percent\", currency: \"EUR\") }",
        "5",
    ),
    (0, "a = { NUMBER(1000000, useGrouping: \"true\", min: 0) }", "1000000"),
    (0, "a = { NUMBER(5, type: \"ordinal\", min: 0) }", "5"),
    (0, "a = { NUMBER(5.0, minimumSignificantDigits: 0) }", "5.0"),
    (0, "a = { NUMBER(5.0, minimumfractiondigits: 0) }", "5.0"),
    // The text `0` of an escape goes to the workspace, and is no count.
    (1, "a = { NUMBER(5.0, min: \"\\u0030\") }", "5.0"),
    // Among text.
    (0, "a = { NUMBER(5, min: 0) } whales", "⟨5⟩ whales"),
    (0, "a = See { NUMBER(5, min: 0) }", "See ⟨5⟩"),
    (0, "a = x { NUMBER(-5, min: 0) } y", "x ⟨-5⟩ y"),
    (0, "a = x { NUMBER(5.5, min: 0) } y", "x ⟨5.5⟩ y"),
    (0, "a = { NUMBER(5, min: 0) }{ NUMBER(-0, min: 0) }", "⟨5⟩⟨-0⟩"),
    (
        0,
        "a = { NUMBER(5, min: 0) } { NUMBER(5, min: 1) } { NUMBER(5.5, min: 0) } { 5 } { $n }",
        "⟨5⟩ ⟨5.0⟩ ⟨5.5⟩ ⟨5⟩ ⟨5⟩",
    ),
    // A dot of the text's own stays.
    (0, "a = { NUMBER(5, min: 0) }.", "⟨5⟩."),
    (0, "a = .{ NUMBER(5, min: 0) }", ".⟨5⟩"),
    (0, "a = See { NUMBER(5, min: 0) }.", "See ⟨5⟩."),
    (0, "a = { NUMBER(5, min: 0) }.{ NUMBER(0, min: 0) }", "⟨5⟩.⟨0⟩"),
    (0, "a = { NUMBER(5, min: 0) }{ \".\" }", "⟨5⟩."),
    (0, "a = { NUMBER(5, min: 0) }{ \"\\u002E\" }", "⟨5⟩."),
    // In inline placeables.
    (0, "a = { { NUMBER(5, min: 0) } }", "5"),
    (0, "a = x { { NUMBER(5, min: 0) } }", "x ⟨5⟩"),
    (0, "a = x { { { NUMBER(-5, min: 0) } } }.", "x ⟨-5⟩."),
    // NUMBER in NUMBER: the outer minimum is merged last.
    (0, "a = { NUMBER(NUMBER(5, min: 2), min: 0) }", "5"),
    (0, "a = { NUMBER(NUMBER(5, min: 0), min: 2) }", "5.00"),
    (0, "a = { NUMBER(NUMBER(5, min: 0)) }", "5"),
    (0, "a = { NUMBER(NUMBER(5, min: 2)) }", "5.00"),
    (0, "a = { NUMBER(NUMBER(5.0), min: 0) }", "5"),
    (0, "a = { NUMBER(NUMBER(5.0, min: 0), min: \"2\") }", "5"),
    (0, "a = { NUMBER(NUMBER(NUMBER($n, min: 0), min: 3), min: -1) }", "5"),
    (0, "a = { NUMBER(NUMBER(5.5, min: 19), min: 0) }", "5.5"),
    // `5` is a text there, and no number.
    (1, "a = { NUMBER({ NUMBER(5, min: 0) }, min: 0) }", "NUMBER()"),
    // A term's arguments.
    (0, "a = { -t(n: 5) }\n-t = { NUMBER($n, min: 0) }", "5"),
    (0, "a = { -t(n: 5.0) }\n-t = { NUMBER($n, min: 0) }", "5"),
    (0, "a = { -t(n: 5.0) }\n-t = { $n }", "5.0"),
    (0, "a = { -t(n: -0.0) }.\n-t = x { NUMBER($n, min: 0) }", "x ⟨-0⟩."),
    (0, "a = { -t(n: \"5\") }\n-t = { NUMBER($n, min: 0) }", "NUMBER()"),
    (0, "a = { -t }\n-t = { NUMBER($n, min: 0) }", "NUMBER()"),
    (0, "a = { -t(NUMBER(5, min: 0), n: 1) }\n-t = { $n }", "1"),
    (0, "a = { -t.x(n: 5) }\n-t = t\n.x = { NUMBER($n, min: 0) }", "5"),
    // In the workspace is `5`.
    (1, "a = { -t({ NUMBER(5, min: 0) }, n: 1) }\n-t = { $n }", "1"),
    // `50` and `5` | `50`, `5` and `1`.
    (
        4,
        "a = { -t(b, { NUMBER(5, min: 0) }) }\n-t = t{ { NUMBER(1, min: 0) } -> *[o] x }\nb = { NUMBER(50, min: 0) }",
        "t⟨x⟩",
    ),
    // Messages.
    (0, "a = { b }\nb = { NUMBER(5, min: 0) }", "5"),
    (
        0,
        "a = { b } and { b.x }\nb = { NUMBER(5, min: 0) }\n.x = { NUMBER(-5, min: 0) }",
        "5 and -5",
    ),
    (0, "a = x { b }.\nb = y { NUMBER(5, min: 0) }", "x y ⟨5⟩."),
    // A selector that is a number: category and equality as before. One with a
    // minimum of 0 is not equal to 1, which has none, nor to 1.0, which has 1.
    (0, "a = { NUMBER(1, min: 0) -> [one] a [1] b *[other] c }", "a"),
    (0, "a = { NUMBER(1, min: 0) -> [1] b [one] a *[other] c }", "a"),
    (0, "a = { NUMBER(1, min: 0) -> [1] b [1.0] d *[other] c }", "c"),
    (0, "a = { NUMBER(1.0, min: 0) -> [1.0] b [1] d *[other] c }", "c"),
    (0, "a = { NUMBER(1) -> [1] b *[other] c }", "b"),
    (0, "a = { 1.0 -> [one] a [1.0] b *[other] c }", "b"),
    (0, "a = { NUMBER(1, min: 1) -> [one] a [1.0] b *[other] c }", "b"),
    (
        0,
        "a = { NUMBER(1, min: 0, type: \"ordinal\") -> [one] { NUMBER(1, min: 0) }st *[other] c }",
        "⟨1⟩st",
    ),
    (0, "a = x { NUMBER(5, min: 0) -> *[other] { NUMBER(5, min: 0) } }", "x ⟨5⟩"),
    // A selector that is a text: `5`.
    (1, "a = { b -> [x] y *[o] z }\nb = { NUMBER(5, min: 0) }", "z"),
    // In the workspace is `-100`.
    (4, "a = { b -> *[o] z }\nb = { NUMBER(-100, min: 0) }", "z"),
    // `x ⟨5⟩` and `⟨5⟩.`, with three bytes for each mark.
    (9, "a = { b -> *[o] z }\nb = x { NUMBER(5, min: 0) }", "z"),
    (8, "a = { b -> *[o] { b } }\nb = { NUMBER(5, min: 0) }.", "⟨5⟩."),
    (1, "a = { { NUMBER(5, min: 0) } -> [one] y *[o] z }", "z"),
    // `5.00`, `5.5`, and the longest without and with a fraction.
    (4, "a = { { NUMBER(5, min: 2) } -> *[o] z }", "z"),
    (3, "a = { { NUMBER(5.5, min: 0) } -> *[o] z }", "z"),
    (16, "a = { { NUMBER(-999999999999999, min: 0) } -> *[o] z }", "z"),
    (17, "a = { { NUMBER(-0.00000000000001, min: 0) } -> *[o] z }", "z"),
    // Its text is `x5`, and so is the key.
    (2, "a = { b -> [x5] y *[o] z }\nb = x{ -t }\n-t = { NUMBER(5, min: 0) }", "y"),
    // With a dot of its own it is not.
    (3, "a = { b -> [x5] y *[o] z }\nb = x{ -t }.\n-t = { NUMBER(5, min: 0) }", "z"),
    // An argument: `50` | twice `50` | `50`, and F is missing.
    (2, "a = { NUMBER(1, b, min: 0) }\nb = { NUMBER(50, min: 0) }", "1"),
    (4, "a = { NUMBER(1, b, { b }, min: 0) }\nb = { NUMBER(50, min: 0) }", "1"),
    (2, "a = { F(b) }\nb = { NUMBER(50, min: 0) }", "{F()}"),
];

/// Without isolation.
#[rustfmt::skip]
pub(super) const PLAIN: [(usize, &str, &str); 20] = [
    (0, "a = { NUMBER(5, min: 0) }", "5"),
    (0, "a = { NUMBER(5, min: 0) } whales", "5 whales"),
    (0, "a = { $n } and { NUMBER($n, min: 0) }", "5 and 5"),
    // The dots are the text's own.
    (0, "a = { NUMBER(5, min: 0) }.", "5."),
    (0, "a = { NUMBER(5, min: 0) }..", "5.."),
    (0, "a = { NUMBER(5.5, min: 0) }.", "5.5."),
    (0, "a = { NUMBER(5, min: 0) }.{ NUMBER(0, min: 0) }", "5.0"),
    (0, "a = { NUMBER(5, min: 0) }{ NUMBER(5, min: 0) }", "55"),
    (0, "a = { NUMBER(5, min: 0) }{ NUMBER(5, min: 1) }", "55.0"),
    (0, "a = { b }.\nb = { NUMBER($c, min: 0) }", "100."),
    (0, "a = { -t(n: 5) }.\n-t = { NUMBER($n, min: 0) }", "5."),
    // In the workspace is `x5`; then `x5.` and `x5.0`.
    (2, "a = { b -> [x5] y *[o] z }\nb = x{ NUMBER(5, min: 0) }", "y"),
    (2, "a = { b -> [x5] y *[o] z }\nb = x{ NUMBER(5) }", "y"),
    (3, "a = { b -> [x5] y *[o] z }\nb = x{ NUMBER(5, min: 0) }.", "z"),
    (4, "a = { b -> [x5] y *[o] z }\nb = x{ NUMBER(5, min: 1) }", "z"),
    // In the workspace is `5 100`.
    (5, "a = { b -> *[o] z }\nb = { NUMBER(5, min: 0) } { NUMBER(100, min: 0) }", "z"),
    // In the workspace is `5 whales`.
    (8, "a = { NUMBER(1, b, min: 0) }\nb = { NUMBER(5, min: 0) } whales", "1"),
    // `1` + `5` | `1z`.
    (2, "a = { b -> [x] y *[o] x }\nb = { NUMBER(1, min: 0) }{ { NUMBER(5, min: 0) } -> *[o] z }", "x"),
    // `12` + `345` | `12z`: a number in a text that is interrupted.
    (
        5,
        "a = { b -> *[o] x }\nb = { NUMBER(12, min: 0) }{ { NUMBER(345, min: 0) } -> *[o] z }",
        "x",
    ),
    (0, "a = «10 { h }».\nh = «9 { NUMBER(5, min: 0) }»", "[90 5]."),
];

/// `h` has nine placeables, and `g` ten `h`.
pub(super) const FAN: &str = "\ng = «10 { h }»\nh = «9 { NUMBER(5, min: 0) }»";

/// 100 placeables, which are not cut short.
pub(super) const WHOLE: [(usize, &str, &str); 2] = [
    (0, "a = «10 { h }»", "[90 ⟨5⟩]"),
    // The select, nine { h } with nine each, and nine more; 90 times seven bytes.
    (
        630,
        "a = { b -> *[o] z }\nb = «9 { h }»«9 { NUMBER(5, min: 0) }»",
        "z",
    ),
];

/// More than 100: with the 101st nothing more is written but names and closing marks.
#[rustfmt::skip]
pub(super) const CUT: [(usize, &str, &str); 8] = [
    (0, "a = «10 { h }»{ NUMBER(6, min: 0) }", "[90 ⟨5⟩]"),
    (0, "a = «10 { h }»{ NUMBER(6, min: 0) -> *[o] x }.", "[90 ⟨5⟩]"),
    // 1 { g }, 92 the tenth { h }, which has eight of its nine.
    (0, "a = x { g } y", "x [89 ⟨5⟩]{h}{g}"),
    // 1 the select, 2 { g }.
    (0, "a = { NUMBER(5, min: 0) -> *[o] { g } }", "[88 ⟨5⟩]{h}{g}{NUMBER()}"),
    (
        0,
        "a = x { NUMBER(5, min: 0) -> *[o] { g } } y",
        "x ⟨[88 ⟨5⟩]{h}{g}{NUMBER()}⟩",
    ),
    // A literal has no name.
    (0, "a = x { 5 -> *[o] { g } }", "x ⟨[88 ⟨5⟩]{h}{g}{???}⟩"),
    // In an argument and a selector: 89 times seven bytes, and `{h}`.
    (626, "a = { NUMBER(7, g, min: 0) }", "7{NUMBER()}"),
    (626, "a = { g -> *[o] x }", "{g}"),
];
