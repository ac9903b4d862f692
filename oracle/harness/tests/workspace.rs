//! Highest uses of the workspace, worked out by hand from document 01's words.
#![forbid(unsafe_code)]

use harness::case::{Bundle, Case, Item, Value};
use harness::{expected, ftl};

/// The highest use for `a`, with `p = p`, `n` the text `two` and no isolation.
fn highest(source: &str) -> usize {
    let items = vec![
        Item::Function("NUMBER".into()),
        Item::Plain(ftl::resource(source)),
        Item::Plain(ftl::resource("p = p")),
    ];
    let case = Case {
        bundle: Bundle {
            locale: 0,
            isolating: false,
            items,
        },
        message: "a".into(),
        attribute: None,
        arguments: vec![("n".into(), Value::Text("two".into()))],
    };
    let e = expected(&case).expect("they agree");
    e.answer.expect("it finishes").highest
}

#[test]
fn what_goes_there() {
    // Written at once, nothing goes there.
    assert_eq!(highest("a = { p }{ $n }{ \"\\u0041\" }{ { p } }"), 0);
    // Selectors: message, term, inline placeable, literal with a backslash.
    assert_eq!(highest("a = { p -> *[o] x }"), 1);
    assert_eq!(highest("a = { -t -> *[o] x }\n-t = ttt"), 3);
    assert_eq!(highest("a = { { $n } -> *[o] x }"), 3);
    assert_eq!(highest("a = { { 1.50 } -> *[o] x }"), 4);
    assert_eq!(highest("a = { \"\\u0041\\\\\" -> *[o] x }"), 2);
    assert_eq!(highest("a = { \"\\uD800\" -> *[o] x }"), 3);
    // Not: plain literals, numbers, variables, function results.
    assert_eq!(highest("a = { \"text\" -> *[o] x }"), 0);
    assert_eq!(highest("a = { 1.50 -> *[o] x }"), 0);
    assert_eq!(highest("a = { $n -> *[o] x }"), 0);
    assert_eq!(highest("a = { NUMBER(5, x: \"y\") -> *[o] x }"), 0);
    // Error texts go where the text goes.
    assert_eq!(highest("a = { zz -> *[o] x }"), 4);
    assert_eq!(highest("a = { { F() } -> *[o] x }"), 5);
}

#[test]
fn how_long_it_stays() {
    // A selector's text is gone before its variant is written.
    assert_eq!(highest("a = { p -> *[o] { -t -> *[o] x } }\n-t = tt"), 2);
    // A function's arguments live together, and are gone before its result.
    assert_eq!(highest("a = { NUMBER(5, p, p, x: \"\\\\\") }"), 3);
    assert_eq!(highest("a = { { NUMBER(55555, p) } -> *[o] x }"), 5);
    assert_eq!(highest("a = { { F(p, p, p, p, p, p) } -> *[o] x }"), 6);
    assert_eq!(highest("a = { F(p, NUMBER(1, p, p), p) }"), 3);
    // A term's arguments, positional ones too, until all its text is written.
    assert_eq!(
        highest("a = { -t(p, n: \"\\\\\") }\n-t = { p -> *[o] x }"),
        3
    );
    assert_eq!(highest("a = { -t(p, n: \"\\\\\") -> *[o] x }\n-t = ttt"), 5);
    assert_eq!(highest("a = { -zz(p, p) -> *[o] x }"), 7);
    // Also where an inner term has cleared them for variables.
    let inner = "-t = { -u }{ p -> *[o] x }\n-u = u";
    assert_eq!(highest(&format!("a = {{ -t(p, p) }}\n{inner}")), 3);
    // A variable of a term shares its argument's bytes.
    assert_eq!(highest("a = { -t(n: \"\\\\\") }\n-t = { $n -> *[o] x }"), 1);
    // A text that interrupts another counts with it.
    let source = "a = { { b } -> *[o] x }\nb = bb{ c -> *[o] y }b\nc = ccc";
    assert_eq!(highest(source), 5);
}
