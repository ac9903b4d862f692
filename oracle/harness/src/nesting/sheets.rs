//! Sheets in which nothing has a mark: their sources, messages and texts.

/// An isolate, one in another, a lone element, no text, an attribute.
const SHIPS: &str = "a = x { $n }\nb = { $n -> *[o] y { $n } } z\nl = { $n }\ne = { \"\" }\n.x = { $n }{ $n }\nd = { { a } }, { { b } }";

/// What is missing, and what is cyclic; `v` has the bytes of `y`.
const ERRORS: &str =
    "a = x { $n }\nf = x { F() }{ zz }\nm = x { $n -> [1] y }\ny = x { { y } }\nv = x { { y } }\nz = z { { y } }";

/// `a` is cut short nowhere, `c` inside one isolate, `d` inside three, `f` has
/// 100 isolates and `o` has one more.
const CUT: &str = "a = x { $n }\nc = x { $n -> *[o] { g } } y\nd = 1{ $n -> *[o] 2{ $n -> *[o] 3{ $n -> *[o] { g } } } }\nf = <100>\no = <101>\nr = { { c } } { $n }";

pub(super) const SHEETS: [(&str, &str, &str); 20] = [
    (SHIPS, "", ""),
    (SHIPS, "a n=נח", "x ⟨נח⟩"),
    (SHIPS, "a n=נח; a n=Витязь", "x ⟨נח⟩x ⟨Витязь⟩"),
    (SHIPS, "l n=2; a n=2; l n=3", "2x ⟨2⟩3"),
    (SHIPS, "b n=2; b", "⟨y ⟨2⟩⟩ z⟨y ⟨{$n}⟩⟩ z"),
    (SHIPS, "e; a n=none; e; e.x n=1", "x ⟨⟩⟨1⟩⟨1⟩"),
    (
        SHIPS,
        "d n=نوح; l n=2; d n=2",
        "⟨x ⟨نوح⟩⟩, ⟨⟨y ⟨نوح⟩⟩ z⟩2⟨x ⟨2⟩⟩, ⟨⟨y ⟨2⟩⟩ z⟩",
    ),
    (SHIPS, "plain:a n=2; b n=2; d n=3", "x 2y 2 zx 3, y 3 z"),
    (ERRORS, "a; a; a", "x ⟨{$n}⟩x ⟨{$n}⟩x ⟨{$n}⟩"),
    (ERRORS, "f; a n=1; f", "x ⟨{F()}⟩{zz}x ⟨1⟩x ⟨{F()}⟩{zz}"),
    (ERRORS, "m n=1; m n=2; m", "x ⟨y⟩x ⟨⟩x ⟨⟩"),
    (ERRORS, "y; z; v; y", "x ⟨{y}⟩z ⟨x ⟨{y}⟩⟩x ⟨{y}⟩x ⟨{y}⟩"),
    // One that is cut short, between two that are not.
    (CUT, "a n=2; c n=2; a n=3", "x ⟨2⟩x ⟨[88 w]{h}{g}{$n}⟩x ⟨3⟩"),
    (
        CUT,
        "c n=2; c n=2",
        "x ⟨[88 w]{h}{g}{$n}⟩x ⟨[88 w]{h}{g}{$n}⟩",
    ),
    (
        CUT,
        "d n=2; a n=2; d",
        "1⟨2⟨3⟨[86 w]{h}{g}{$n}⟩{$n}⟩{$n}⟩x ⟨2⟩1⟨2⟨3⟨[86 w]{h}{g}{$n}⟩{$n}⟩{$n}⟩",
    ),
    // The limit is each message's own.
    (CUT, "f n=2; f n=3", "[100 ⟨2⟩][100 ⟨3⟩]"),
    (CUT, "f n=2; o n=3; f n=4", "[100 ⟨2⟩][100 ⟨3⟩][100 ⟨4⟩]"),
    (
        CUT,
        "f n=2; c n=2; f n=3",
        "[100 ⟨2⟩]x ⟨[88 w]{h}{g}{$n}⟩[100 ⟨3⟩]",
    ),
    // Its first isolate holds `c`, in which 1 is the isolate, 2 the select, 3
    // { g }.
    (CUT, "r n=2; a n=2", "⟨x ⟨[87 w]{h}{g}{$n}⟩{???}⟩x ⟨2⟩"),
    (
        CUT,
        "plain:a n=2; c n=2; d n=2",
        "x 2x [88 w]{h}{g}{$n}123[86 w]{h}{g}{$n}{$n}{$n}",
    ),
];
