//! Hand-made formattings for the finer points of document 01; each is run with
//! exact buffers and with each buffer one byte short.

use crate::case::{Bundle, Case, Item, Value};
use crate::ftl;
use crate::model::number::literal;

/// `g` stands for 101 placeables: its own 10, nine times `h`'s 9 and `k`'s 10. So
/// a reference to `g` is always cut short inside `k`. `p` is plain.
const FAN: &str = r#"
    g = { h }{ h }{ h }{ h }{ h }{ h }{ h }{ h }{ h }{ k }
    h = { "w" }{ "w" }{ "w" }{ "w" }{ "w" }{ "w" }{ "w" }{ "w" }{ "w" }
    k = { "w" }{ "w" }{ "w" }{ "w" }{ "w" }{ "w" }{ "w" }{ "w" }{ "w" }{ "w" }
    p = p"#;

/// Sources of `a` and what it needs. `n` is 2, `m` is none, `s` is `one`, and
/// `q` is missing.
const POINTS: [&str; 68] = [
    // Cut short: names, `???`, marks, arguments that still resolve.
    "a = x { g }",
    "a = x { g }{ p }",
    "a = { NUMBER(5, g, zz) }",
    "a = x { NUMBER(5, g, zz) }",
    "a = x { F(g, $q, zz) }",
    "a = x { { g } }",
    "a = x { { { g } } }",
    "a = x { 1 -> *[o] { g } }",
    "a = x { \"l\" -> *[o] { g } }",
    "a = x { g -> [x] y *[o] z }",
    "a = x { g -> [x] y }",
    "a = x { { g } -> [x] y }",
    "a = x { NUMBER(1, g) -> [one] y *[o] z }",
    "a = x { -t(g, -u, n: \"\\u0041\") }\n-t = t",
    "a = x { -t(n: 1) }\n-t = { NUMBER($n, g) }{ $n }",
    "a = x { NUMBER(5, g, minimumFractionDigits: 20) }",
    "a = { NUMBER({ g }, { a }) }",
    "a = { $n } { p.x } { g }",
    "a = { g -> [w] y *[o] z } w",
    // Cyclic: equal bytes, not equal ids; variants are not remembered.
    "a = { b }\nb = x { c }\nc = x { c }",
    "a = x { b }\nb = x { b }",
    "a = { b }\nb = { b }",
    "a = { $n -> [two] x *[o] { a } }",
    "a = { 1 -> *[o] x{ b } }\nb = x{ b }",
    "a = { b.x } { b.y }\nb = v\n.x = { b.y }\n.y = { b.x }\n.x = late",
    "a = { NUMBER(a) -> [x] x *[o] { a } }",
    // Terms and their arguments.
    "a = { -t(n: 1) } { $n }\n-t = { $n } { b }\nb = { $n }{ $q }",
    "a = { -t } { $q }\n-t = { $n }{ $q }",
    "a = { -t(n: 1) }\n-t = { NUMBER($n, -u) }{ $n }",
    "a = { -t(n: 1) }\n-t = { $n -> [one] { -u } *[o] y }{ $n }\n-u = { $n }",
    "a = { -t(n: \"\\u0041\\\\\", m: \"x\\u0042\") }\n-t = { $n -> [A] y *[o] { $n }{ $m } }",
    "a = { -t(p, { \"x\" }, n: \"\\u0041\") -> [pA] y *[o] z }\n-t = { p }{ $n }",
    "a = { -t.x(p, n: \"\\\\\") } { -t.y(p) }\n-t = v\n.x = { $n }",
    "a = { -zz(p, \"\\u0041\", n: \"\\u0042\") }",
    "a = { NUMBER(-t(p, n: \"\\\\\"), p) }\n-t = { NUMBER(p, p) -> *[o] { $n } }",
    // Several workspace texts alive at once.
    "a = { -t(NUMBER(p, { \"x\" }, \"\\u0041\"), n: \"\\u0042\") -> [pB] y *[o] z }\n-t = { p }{ $n }",
    "a = { -t(F(p, p, { p }), p, n: \"\\u0042\") -> *[o] z }\n-t = { NUMBER(p, { p }, x: \"\\u0043\") }{ $n }",
    "a = { F(-t(p, n: \"\\u0041\"), { p }, \"\\\\\") -> *[o] { p } }\n-t = t{ -u(p, { p }) }\n-u = { p }{ p }",
    "a = { { { p -> [p] { p } *[o] x } } -> [p] { { p } } *[o] y }",
    "a = { NUMBER(NUMBER(NUMBER(1, p), { p }), -t(p, n: \"\\u0041\")) }\n-t = { NUMBER(2, { $n }, p) }",
    // Selection: kinds, order, defaults.
    "a = { $n -> [2] x [two] y *[other] z }",
    "a = { $n -> [other] x [2] y *[two] z }",
    "a = { $n -> [2.0] x *[one] y *[few] z }",
    "a = { $m -> [x] x *[o] none }",
    "a = { $q -> [x] x *[o] missing }",
    "a = { $q -> [x] x }",
    "a = { $s -> [one] text [1] number *[o] z }",
    "a = { \"o\\u006Ee\" -> [one] text *[o] z } { p }",
    "a = { p -> [p] text *[o] z }{ { p } -> [p] text *[o] z }",
    "a = { NUMBER(1, type: \"ordinal\") -> [1] x [one] y *[o] z }",
    "a = { NUMBER(1, type: \"cardinal\", style: \"z\") -> [1] x *[o] z }",
    "a = { NUMBER(1, minimumFractionDigits: 1) -> [1] x [1.0] y *[o] z }",
    "a = { NUMBER(-0) -> [0] x *[o] z }",
    "a = { NUMBER(1, currency: \"E\") -> [1] x [one] y *[o] z }",
    "a = { NUMBER(1, useGrouping: \"false\") -> [1] x *[o] z }",
    "a = { NUMBER(1, useGrouping: \"\") -> [1] x *[o] z }",
    "a = { F(p, \"\\u0041\") -> [one] x *[o] z }",
    "a = { NUMBER(p, p, x: \"\\\\\") -> [one] x *[o] z }{ p }",
    // NUMBER and refusal 17.
    "a = { NUMBER(5, minimumFractionDigits: 19.99) } { NUMBER(5.5, minimumFractionDigits: -20) }",
    "a = x { NUMBER(5, minimumFractionDigits: 20) }",
    "a = { NUMBER(5, minimumFractionDigits: \"20\") } { NUMBER(\"5\", minimumFractionDigits: 20) }",
    "a = { F(5, minimumFractionDigits: 20) }",
    "a = { NUMBER(5, minimumFractionDigits: 20) -> *[o] x }",
    "a = { zz } { -t(NUMBER(5, minimumFractionDigits: 20)) }\n-t = t",
    "a = { NUMBER(1.50, maximumFractionDigits: 0, minimumIntegerDigits: 4) } { 1.50 } { NUMBER($n, q: 1) }",
    // References.
    "a = { b } { b.x } { b.y } { NUMBER } { -b } { a() } { p.x }\nb =\n.x = y",
    // None, empty literals, marks.
    "a = { $m }{ \"\" }{ { $m } } { $s }",
    "a = { \"\\uD800\\UFFFFFF\\U01F40B\\\"\" } { { \"\\\\\" } }",
];

pub fn points() -> Vec<Case> {
    let case = |source: &str| {
        let number = |text: &str| Value::Number(literal(text.as_bytes()).expect("a number").0);
        let mut items = vec![
            Item::Function("NUMBER".into()),
            Item::Plain(ftl::resource(source)),
        ];
        if ["g }", "g,", "g)", "g -"]
            .iter()
            .any(|g| source.contains(g))
        {
            items.push(Item::Plain(ftl::resource(FAN)));
        } else if source.contains('p') {
            items.push(Item::Plain(ftl::resource("p = p")));
        }
        Case {
            bundle: Bundle {
                locale: if source.contains("[two]") { 3 } else { 0 },
                isolating: true,
                items,
            },
            message: "a".into(),
            attribute: None,
            arguments: vec![
                ("m".into(), Value::None),
                ("n".into(), number("2")),
                ("s".into(), Value::Text("one".into())),
            ],
        }
    };
    POINTS.iter().map(|source| case(source)).collect()
}
