//! The formattings and the sheets, each with five answers: with lists of 0, 4, 5
//! and 40 bytes and a text of 40, and with a list of 40 and a text of none.

/// `a` shows `$n`, `b` has no value, `c` meets 17, `t` is a term's id.
pub(super) const SOURCE: &str =
    "a = A{ $n }\n.x = X\nb =\n.x = B\nc = { NUMBER(5, minimumFractionDigits: 20) }\n-t = t";

/// In a formatting: 4; 8; 11; 12; 13; 19; 7 for a list under 5 bytes; then the run.
pub(super) const CALLS: [(&str, &str, [u8; 5]); 62] = [
    // Accepted: 7 for the list, then the run. A text of 0 bytes meets 15.
    ("a", "n=x", [7, 7, 0, 0, 15]),
    ("a", "n=x z", [7, 7, 0, 0, 15]),
    ("a", "m n=25/1 o", [7, 7, 0, 0, 15]),
    ("a", "n=-0/0", [7, 7, 0, 0, 15]),
    ("a.x", "n=x z", [7, 7, 0, 0, 15]),
    // `$n` is missing: the run meets 7 for the record.
    ("a", "", [7, 7, 7, 0, 15]),
    ("a", "N na z", [7, 7, 7, 0, 15]),
    ("c", "n=x", [7, 7, 17, 17, 17]),
    // 19 comes before every 7, and before 15 and 17.
    ("a", "z n=x", [19, 19, 19, 19, 19]),
    ("a", "n=x n=x", [19, 19, 19, 19, 19]),
    ("a", "n=x n=y", [19, 19, 19, 19, 19]),
    ("a", "n=x a", [19, 19, 19, 19, 19]),
    ("a", "n=x m m", [19, 19, 19, 19, 19]),
    ("a", "n=10/1", [19, 19, 19, 19, 19]),
    ("a", "n=0/1", [19, 19, 19, 19, 19]),
    ("a", "n=-0/14", [19, 19, 19, 19, 19]),
    ("a", "m=10/1 n=x", [19, 19, 19, 19, 19]),
    ("a.x", "z n=x", [19, 19, 19, 19, 19]),
    ("a.x", "z=10/1", [19, 19, 19, 19, 19]),
    ("b.x", "b a", [19, 19, 19, 19, 19]),
    ("c", "b a", [19, 19, 19, 19, 19]),
    ("c", "a=0/2", [19, 19, 19, 19, 19]),
    // 13 comes before 19.
    ("a", "+left", [13, 13, 13, 13, 13]),
    ("a", "n=x !kind", [13, 13, 13, 13, 13]),
    ("a", "z n=x !kind", [13, 13, 13, 13, 13]),
    ("a", "z n=x +left", [13, 13, 13, 13, 13]),
    ("a", "n=x n=y +count", [13, 13, 13, 13, 13]),
    ("a", "n=10/1 !scale", [13, 13, 13, 13, 13]),
    ("a", "n=10/1 +version", [13, 13, 13, 13, 13]),
    ("a", "n=0/15", [13, 13, 13, 13, 13]),
    ("a", "!kind b a", [13, 13, 13, 13, 13]),
    ("a.x", "b a !cut", [13, 13, 13, 13, 13]),
    ("c", "b a !name", [13, 13, 13, 13, 13]),
    // 12 comes before both.
    ("a.no", "n=x", [12, 12, 12, 12, 12]),
    ("a.no", "z n=x", [12, 12, 12, 12, 12]),
    ("a.no", "n=10/1", [12, 12, 12, 12, 12]),
    ("a.no", "+left", [12, 12, 12, 12, 12]),
    ("a.no", "z n=x !kind", [12, 12, 12, 12, 12]),
    ("b", "z n=x", [12, 12, 12, 12, 12]),
    ("b", "n=0/1", [12, 12, 12, 12, 12]),
    ("b", "n=0/1 +left", [12, 12, 12, 12, 12]),
    // 11 before 12.
    ("zz", "n=x", [11, 11, 11, 11, 11]),
    ("zz", "z n=x", [11, 11, 11, 11, 11]),
    ("zz", "n=10/1", [11, 11, 11, 11, 11]),
    ("zz.no", "z n=x !kind", [11, 11, 11, 11, 11]),
    ("t", "z n=x", [11, 11, 11, 11, 11]),
    ("NUMBER", "n=x n=x", [11, 11, 11, 11, 11]),
    // 8 before 11.
    ("1a", "n=x", [8, 8, 8, 8, 8]),
    ("1a", "z n=x", [8, 8, 8, 8, 8]),
    ("a.1", "z n=x", [8, 8, 8, 8, 8]),
    ("a.1", "n=10/1", [8, 8, 8, 8, 8]),
    ("zz.1", "z n=x +left", [8, 8, 8, 8, 8]),
    // 4 before all.
    ("!a", "n=x", [4, 4, 4, 4, 4]),
    ("!a", "z n=x", [4, 4, 4, 4, 4]),
    ("!a", "n=10/1", [4, 4, 4, 4, 4]),
    ("!a", "z n=x !kind", [4, 4, 4, 4, 4]),
    ("!1a", "z n=x", [4, 4, 4, 4, 4]),
    ("!zz", "z n=x", [4, 4, 4, 4, 4]),
    // The same names and values in order, out of order, and one twice.
    ("a", "l m n=x o", [7, 7, 0, 0, 15]),
    ("a", "l n=x m o", [19, 19, 19, 19, 19]),
    ("a", "l m n=x n=x o", [19, 19, 19, 19, 19]),
    ("a", "l m n=x o !text", [13, 13, 13, 13, 13]),
];

/// In a sheet 7 for a list under 5 bytes comes before any message, and changes
/// nothing; then the messages in order, each 11; 12; 13; 19; its run. What a message
/// meets fills the buffers with zeros.
pub(super) const SHEETS: [(&str, [u8; 5]); 44] = [
    ("a n=x", [7, 7, 0, 0, 15]),
    ("a n=x z", [7, 7, 0, 0, 15]),
    ("a n=x; a.x m n=2/0; b.x", [7, 7, 0, 0, 15]),
    ("a", [7, 7, 7, 0, 15]),
    // 19 of the only message, the first, the middle one, the last.
    ("a z n=x", [7, 7, 19, 19, 19]),
    ("a n=x n=x", [7, 7, 19, 19, 19]),
    ("a n=x n=y", [7, 7, 19, 19, 19]),
    ("a n=10/1", [7, 7, 19, 19, 19]),
    ("a n=0/1", [7, 7, 19, 19, 19]),
    ("a n=-0/3", [7, 7, 19, 19, 19]),
    ("a z n=x; a n=x; a n=x", [7, 7, 19, 19, 19]),
    ("a n=x; a z n=x; a n=x", [7, 7, 19, 19, 15]),
    ("a n=x; a n=x; a z n=x", [7, 7, 19, 19, 15]),
    ("a n=x; a n=10/1", [7, 7, 19, 19, 15]),
    ("b.x a=10/1; a n=x", [7, 7, 19, 19, 19]),
    // 13 comes before 19 in a message, and the earlier message before the later.
    ("a z n=x !kind", [7, 7, 13, 13, 13]),
    ("a n=10/1 +left", [7, 7, 13, 13, 13]),
    ("a z n=x +count", [7, 7, 13, 13, 13]),
    ("a !kind b a", [7, 7, 13, 13, 13]),
    ("a z n=x; a !kind", [7, 7, 19, 19, 19]),
    ("a !kind; a z n=x", [7, 7, 13, 13, 13]),
    ("a n=x; a z n=x; a +version", [7, 7, 19, 19, 15]),
    ("a n=x; a +version; a z n=x", [7, 7, 13, 13, 15]),
    // 11 and 12 before both, in a message.
    ("zz z n=x", [7, 7, 11, 11, 11]),
    ("t n=10/1", [7, 7, 11, 11, 11]),
    ("zz.no z n=x +left", [7, 7, 11, 11, 11]),
    ("a.no z n=x", [7, 7, 12, 12, 12]),
    ("b n=0/1", [7, 7, 12, 12, 12]),
    ("b z n=x !kind", [7, 7, 12, 12, 12]),
    ("a z n=x; zz", [7, 7, 19, 19, 19]),
    ("zz; a z n=x", [7, 7, 11, 11, 11]),
    ("a n=10/1; b", [7, 7, 19, 19, 19]),
    ("b; a n=10/1", [7, 7, 12, 12, 12]),
    // The run of an earlier message comes before 19 of a later one: a record that
    // does not fit, and 17.
    ("a; a z n=x", [7, 7, 7, 19, 15]),
    ("a z n=x; a", [7, 7, 19, 19, 19]),
    ("c; a z n=x", [7, 7, 17, 17, 17]),
    ("a z n=x; c", [7, 7, 19, 19, 19]),
    ("a n=x; c; a n=0/1", [7, 7, 17, 17, 15]),
    ("a n=x; a n=0/1; c", [7, 7, 19, 19, 15]),
    // Each message has an order of its own.
    ("a z; a n=x; a b", [7, 7, 7, 0, 15]),
    ("a.x z; a.x y; a.x a", [7, 7, 0, 0, 15]),
    ("a.x n; a.x n; a.x n", [7, 7, 0, 0, 15]),
    ("a.x b a; a.x a b", [7, 7, 19, 19, 19]),
    ("a.x a b; a.x b a", [7, 7, 19, 19, 15]),
];
