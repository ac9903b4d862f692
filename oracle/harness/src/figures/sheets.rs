//! The sheets: the figure is the largest of the messages', wherever it stands.

/// Messages that use 0, 1, 3, 2 and 6 bytes: `a` and `p` are plain, `o` has p,
/// `r` has www and then p, `t` has p and A, `k` has кит. `n` uses what it is given.
const WORK: &str = "a = A\no = { p -> *[o] x }\np = p\nr = { { \"www\" } -> *[o] { p -> *[o] x } }\nt = { -t(p, n: \"\\u0041\") }\n-t = { $n }\nk = { b -> *[o] x }\nb = кит\nn = { { $n } -> *[o] x }\n.x = { NUMBER(1, { $n }, p) }";

/// `c` is cut short, `h` is not; see the formattings' `g`.
const FAN: &str = "c = { g -> *[o] x }\ng = { h }{ h }{ h }{ h }{ h }{ h }{ h }{ h }{ h }{ h }\nh = { \"w\" }{ \"w\" }{ \"w\" }{ \"w\" }{ \"w\" }{ \"w\" }{ \"w\" }{ \"w\" }{ \"w\" }\np = p\no = { p -> *[o] x }\nf = { h -> *[o] x }";

pub(super) const SHEETS: [(usize, &str, &str); 24] = [
    // No message, and messages that use nothing.
    (0, WORK, ""),
    (0, WORK, "a"),
    (0, WORK, "a; p; a"),
    // One that uses something, alone and among others.
    (1, WORK, "o"),
    (1, WORK, "a; o; a"),
    (6, WORK, "k"),
    // The largest first, in the middle, last; the sums are 6 to 13.
    (3, WORK, "r; t; o"),
    (3, WORK, "t; r; o"),
    (3, WORK, "o; t; r"),
    (6, WORK, "k; r; t; o; a"),
    (6, WORK, "a; r; k; r; a"),
    (6, WORK, "o; o; o; o; o; o; o; k"),
    // The same message over and over uses what it uses once.
    (1, WORK, "o; o; o; o; o; o; o"),
    (2, WORK, "t; t; t"),
    // Each has arguments of its own: x, кит, two, and {$n} where there is none.
    (1, WORK, "n n=x; n n=y"),
    (6, WORK, "n n=x; n n=кит; n n=two"),
    (4, WORK, "n n=x; n; n n=two"),
    (2, WORK, "n n=12; n n=none"),
    // With p: two and p; 1.5 and p; {$n} and p.
    (4, WORK, "n.x n=two; n n=two; n.x n=x"),
    (4, WORK, "a; n.x n=1.5; o"),
    (5, WORK, "n.x n=x; n.x; n.x n=y"),
    // Cut short, and then a message that is not: 92, or nine and 92.
    (92, FAN, "c; o"),
    (92, FAN, "f; c; c; f"),
    (9, FAN, "f; f; o; h"),
];
