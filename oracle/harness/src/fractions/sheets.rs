//! The sheets: their figures, messages and texts.

/// What they are made of. `a` has no dot, `o` is one; `k` has the text of `a` in the
/// workspace, `m` has it there twice; `c` has 100 placeables and `i` one more; `z`
/// meets 17.
pub(super) const SOURCE: &str = "
    a = { NUMBER($n, min: 0) }
    .x = { NUMBER($n, min: 1) }
    d = { $n }
    o = .
    w = { NUMBER($n, min: 0) } whales.
    s = { NUMBER($n, min: 0) -> [one] one [1] equal *[other] { NUMBER($n, min: 0) } }
    t = { -u(n: 5.0) } { NUMBER($n, min: 0) }
    -u = { NUMBER($n, min: 0) }
    k = { a -> *[o] { a } }
    m = { NUMBER(1, a, { a }) }
    z = { NUMBER($n, min: 20) }";

/// Where one of `c`, `i` and `v` is asked for.
pub(super) const CUT: &str =
    "\nc = «10 { h }»\ni = «10 { h }»{ NUMBER(6, min: 0) }\nv = { g -> *[o] x }";

/// Before the messages: `plain:` is without isolation, `da:`, `ru:` and `cy:` are the
/// locale.
pub(super) const SHEETS: [(usize, &str, &str); 32] = [
    (0, "", ""),
    (0, "a n=5", "5"),
    (0, "a n=5; a n=-5; a n=0; a n=-0", "5-50-0"),
    (0, "a n=100; a n=5.5; a n=0.5", "1005.50.5"),
    (
        0,
        "a n=999999999999999; a n=0.00000000000001",
        "9999999999999990.00000000000001",
    ),
    // The dot is the next message's.
    (0, "a n=5; o", "5."),
    (0, "a n=5; o; a n=0", "5.0"),
    (0, "o; a n=5; o; o", ".5.."),
    (0, "a n=5; a.x n=5; d n=5", "55.05"),
    (0, "a.x n=5; a n=5; a.x n=-0", "5.05-0.0"),
    (0, "d n=5; d n=5.5; a n=5.5", "55.55.5"),
    (0, "w n=5; w n=5.5", "⟨5⟩ whales.⟨5.5⟩ whales."),
    (0, "plain:w n=5; w n=-0", "5 whales.-0 whales."),
    // 1 has a minimum, so it is not equal to the key 1.
    (0, "s n=1; s n=2; s n=-1", "one2one"),
    (0, "s n=1.5; s n=0; s n=100", "1.50100"),
    (0, "t n=7; t n=7.5", "5 ⟨7⟩5 ⟨7.5⟩"),
    (0, "plain:t n=7; o; t n=-0", "5 7.5 -0"),
    // No number, so nothing is merged, and 17 is not met.
    (0, "a; a n=x; a n=none", "NUMBER()NUMBER()NUMBER()"),
    (0, "z n=x; a n=5", "NUMBER()5"),
    // The figure is the largest of the messages'.
    (1, "k n=5", "5"),
    (3, "k n=5; k n=100; k n=7", "51007"),
    (4, "k n=-100; k n=5.5; a n=5", "-1005.55"),
    (2, "m n=5; k n=5; m n=7", "151"),
    (8, "k n=5; m n=1000; k n=5", "515"),
    (17, "k n=-0.00000000000001; k n=5", "-0.000000000000015"),
    // Danish: 1, 0.5; Russian: 21; Welsh: 1. Of the rest the number is written.
    (0, "da:s n=1; s n=0.5; s n=2", "oneone2"),
    (0, "ru:s n=21; s n=2; s n=11", "one211"),
    (0, "cy:s n=1; s n=0; s n=2", "one02"),
    // The limit is each message's own.
    (0, "c; a n=5; c", "[90 ⟨5⟩]5[90 ⟨5⟩]"),
    (0, "c; i; a n=5; o", "[90 ⟨5⟩][90 ⟨5⟩]5."),
    (626, "v; a n=5; k n=5", "{g}55"),
    (92, "plain:v; i; a n=5", "{g}[90 5]5"),
];

/// Sheets that are refused with ample buffers, too.
pub(super) const REFUSED: [(&str, u8); 10] = [
    ("z n=5", 17),
    ("a n=5; z n=5", 17),
    ("z n=5.5; zz", 17),
    ("zz; z n=5", 11),
    ("a n=5; zz", 11),
    ("a n=5; a.no n=5; z n=5", 12),
    ("a n=5; a !version", 13),
    ("a n=5; a !scale; z n=5", 13),
    ("a n=5; z n=5; a !scale", 17),
    ("k n=5; a !number", 13),
];
