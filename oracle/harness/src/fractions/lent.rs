//! Calls with lent lengths and their answers, without isolation: buffers that are
//! just long enough without the dot, and one byte less.

/// A source, what is lent of text, list and workspace, and the answer.
#[rustfmt::skip]
pub(super) const LENT: [(&str, [usize; 3], u8); 46] = [
    // The text is `5`.
    ("a = { NUMBER(5, min: 0) }", [1, 5, 0], 0),
    ("a = { NUMBER(5, min: 0) }", [0, 5, 0], 15),
    ("a = { NUMBER(5, min: 0) }", [1, 4, 0], 7),
    ("a = { NUMBER(-999999999999999, min: 0) }", [16, 5, 0], 0),
    ("a = { NUMBER(-999999999999999, min: 0) }", [15, 5, 0], 15),
    // `5.` with a dot of the text, `5.5`, `5.0`.
    ("a = { NUMBER(5, min: 0) }.", [2, 5, 0], 0),
    ("a = { NUMBER(5, min: 0) }.", [1, 5, 0], 15),
    ("a = { NUMBER(5.5, min: 0) }", [3, 5, 0], 0),
    ("a = { NUMBER(5.5, min: 0) }", [2, 5, 0], 15),
    ("a = { NUMBER(5, min: 1) }", [3, 5, 0], 0),
    ("a = { NUMBER(5, min: 1) }", [2, 5, 0], 15),
    ("a = { NUMBER($n, min: 0) } whales", [8, 5, 0], 0),
    ("a = { NUMBER($n, min: 0) } whales", [7, 5, 0], 15),
    // `5{$q}`, and a record of eight bytes, which is listed before `{$q}` is written.
    ("a = { NUMBER(5, min: 0) }{ $q }", [5, 13, 0], 0),
    ("a = { NUMBER(5, min: 0) }{ $q }", [4, 13, 0], 15),
    ("a = { NUMBER(5, min: 0) }{ $q }", [5, 12, 0], 7),
    ("a = { NUMBER(5, min: 0) }{ $q }", [1, 12, 0], 7),
    ("a = { NUMBER(5, min: 0) }{ $q }", [0, 12, 0], 15),
    // A selector's text comes before the variant's.
    ("a = { b -> *[o] z }\nb = { NUMBER(5, min: 0) }", [1, 5, 1], 0),
    ("a = { b -> *[o] z }\nb = { NUMBER(5, min: 0) }", [1, 5, 0], 16),
    ("a = { b -> *[o] z }\nb = { NUMBER(5, min: 0) }", [0, 5, 1], 15),
    ("a = { b -> *[o] z }\nb = { NUMBER(5, min: 0) }", [0, 5, 0], 16),
    ("a = { b -> *[o] z }\nb = { NUMBER(-100, min: 0) }.", [1, 5, 5], 0),
    ("a = { b -> *[o] z }\nb = { NUMBER(-100, min: 0) }.", [1, 5, 4], 16),
    // Twice `50` in the workspace.
    ("a = { NUMBER(1, b, { b }, min: 0) }\nb = { NUMBER(50, min: 0) }", [1, 5, 4], 0),
    ("a = { NUMBER(1, b, { b }, min: 0) }\nb = { NUMBER(50, min: 0) }", [1, 5, 3], 16),
    ("a = { NUMBER(1, b, { b }, min: 0) }\nb = { NUMBER(50, min: 0) }", [0, 5, 4], 15),
    ("a = { NUMBER(1, b, { b }, min: 0) }\nb = { NUMBER(50, min: 0) }", [0, 5, 3], 16),
    ("a = { -t({ NUMBER(5, min: 0) }) }\n-t = t", [1, 5, 1], 0),
    ("a = { -t({ NUMBER(5, min: 0) }) }\n-t = t", [1, 5, 0], 16),
    // 17 at its merge, also where an outer minimum would be 0.
    ("a = { NUMBER(5, min: 20) }", [0, 5, 0], 17),
    ("a = { NUMBER(5, min: 20) }", [1, 4, 0], 7),
    ("a = { NUMBER(NUMBER(5, min: 20), min: 0) }", [9, 9, 9], 17),
    ("a = { NUMBER(NUMBER(5, min: 0), min: 20) }", [9, 9, 9], 17),
    ("a = { NUMBER(5, min: 0) }{ NUMBER(5, min: 999999999999999) }", [1, 5, 0], 17),
    ("a = { NUMBER(5, min: 0) }{ NUMBER(5, min: 999999999999999) }", [0, 5, 0], 15),
    ("a = { { NUMBER(5, min: 0) } -> *[o] { NUMBER(5, min: 20) } }", [0, 5, 1], 17),
    ("a = { { NUMBER(5, min: 0) } -> *[o] { NUMBER(5, min: 20) } }", [0, 5, 0], 16),
    // 90 times `5`, and then the record of the 101st placeable, three bytes.
    ("a = «10 { h }»", [90, 5, 0], 0),
    ("a = «10 { h }»", [89, 5, 0], 15),
    ("a = «10 { h }»{ NUMBER(6, min: 0) }", [90, 8, 0], 0),
    ("a = «10 { h }»{ NUMBER(6, min: 0) }", [90, 7, 0], 7),
    ("a = «10 { h }»{ NUMBER(6, min: 0) }", [89, 8, 0], 15),
    // 89 times `5` and `{h}`, and then `{g}` is the text.
    ("a = { g -> *[o] x }", [3, 8, 92], 0),
    ("a = { g -> *[o] x }", [3, 8, 91], 16),
    ("a = { g -> *[o] x }", [2, 8, 92], 15),
];

/// The same of sheets, of the messages that the sheets have.
pub(super) const LENT_SHEETS: [(&str, [usize; 3], u8); 27] = [
    // The text is `57`.
    ("a n=5; a n=7", [2, 5, 0], 0),
    ("a n=5; a n=7", [1, 5, 0], 15),
    ("a n=5; a n=7", [0, 5, 0], 15),
    ("a n=5; a n=7", [2, 4, 0], 7),
    ("a n=5; o", [2, 5, 0], 0),
    ("a n=5; o", [1, 5, 0], 15),
    // `5100`, and `5` and then `100` in the workspace.
    ("k n=5; k n=100", [4, 5, 3], 0),
    ("k n=5; k n=100", [4, 5, 2], 16),
    ("k n=5; k n=100", [4, 5, 0], 16),
    ("k n=5; k n=100", [3, 5, 3], 15),
    ("k n=5; k n=100", [1, 5, 1], 16),
    ("k n=5; k n=100", [0, 5, 0], 16),
    // `15`, and twice `5` in the workspace.
    ("m n=5; k n=5", [2, 5, 2], 0),
    ("m n=5; k n=5", [2, 5, 1], 16),
    ("m n=5; k n=5", [1, 5, 2], 15),
    // The text is `NUMBER()5`.
    ("a; a n=5", [9, 13, 0], 0),
    ("a; a n=5", [8, 13, 0], 15),
    ("a; a n=5", [9, 12, 0], 7),
    // 17 is its message's.
    ("z n=5; a n=5", [9, 9, 9], 17),
    ("a n=5; z n=5", [1, 5, 0], 17),
    ("a n=5; z n=5", [0, 5, 0], 15),
    ("a n=5; z n=5", [1, 4, 0], 7),
    ("c; a n=5", [91, 5, 0], 0),
    ("c; a n=5", [90, 5, 0], 15),
    ("i; a n=5", [91, 8, 0], 0),
    ("i; a n=5", [90, 8, 0], 15),
    ("i; a n=5", [91, 7, 0], 7),
];
