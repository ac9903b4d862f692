//! Hand-made sheets for the finer points of document 02's Card 1. A sheet is
//! written as its messages with `;` between them; each has its id, perhaps
//! `.attribute`, and its arguments as `name=value`.

use crate::bytes::Write;
use crate::case::{accepted, Bundle, Given, Item, Row, Sheet, Value};
use crate::ftl;
use crate::model::number::literal;

/// `c` has 100 placeables, its own 10 and ten times `h`'s 9; `d` has one more.
const FAN: &str = r#"
    c = { h }{ h }{ h }{ h }{ h }{ h }{ h }{ h }{ h }{ h }
    d = { h }{ h }{ h }{ h }{ h }{ h }{ h }{ h }{ h }{ h }{ "w" }
    h = { "w" }{ "w" }{ "w" }{ "w" }{ "w" }{ "w" }{ "w" }{ "w" }{ "w" }
    s = x { d }"#;

/// Texts, an attribute, a message without a value.
const PLAIN: &str =
    "a = Hello\n.x = there\n.y = { $n }\nb =\n.x = only\nn = { $n } whales\ne = { \"\" }";

/// Errors of each kind.
const ERRORS: &str = "a = A\nv = { $n }\nm = { zz.x }{ b }\nb =\n.x = X\nf = { F() }{ -zz }\nl = x { l }\no = { $n -> [1] x }";

/// Messages that use 0, 1, 3 and 2 bytes of the workspace.
const WORK: &str = "a = A\no = { p -> [p] y *[o] x }\np = p\nr = { { \"www\" } -> *[o] { p } }\nt = { -t(p, n: \"\\u0041\") }\n-t = { $n }";

/// Sources, and sheets of their messages.
const POINTS: [(&str, &[&str]); 7] = [
    (
        PLAIN,
        &[
            "",
            "a",
            "e",
            "a; a",
            "a; e; a",
            "e; e; e",
            "a.x; b.x; a",
            "n n=3; n; n n=Anna; a.y n=-0.50",
            "a.y; a.y n=1; n n=none; a",
        ],
    ),
    (
        ERRORS,
        &["v", "v; v", "a; m; a; f", "l; l", "o n=1; o n=2; o; v n=x", "f; a; m; l; v; o"],
    ),
    (
        WORK,
        &["o", "a; o", "o; a", "r; o", "o; r; t; o", "t; t; t", "r; r; a; t", "t; a; r; p"],
    ),
    // The limit of 100 is each message's own, and a text that was cut short
    // does not cut the next one.
    (FAN, &["c", "c; c", "d; h", "d; d; c", "s; h; s; h", "h; s; c"]),
    // Nothing of a message is left in the next one: term arguments, the trail
    // of patterns, the arguments.
    (
        "a = { -t(n: \"1\") }\n-t = { $n }\nb = { $n }\nc = { -u(n: 1) }\n-u = { -t }{ $n }\nx = x{ y }\ny = z{ $n }\nw = z{ $n }\nl = { l }\nk = { l }",
        &["a; b", "a n=2; b n=3; b", "c; b", "x; y; w", "l; l; k; l", "b n=1; b; b n=2", "c n=5; a; c"],
    ),
    // 17 in each place, and what is met before it.
    (
        "a = A\nd = x { NUMBER(5, minimumFractionDigits: 20) }\nv = { $q }\ns = { NUMBER(5, minimumFractionDigits: 20) -> *[o] x }",
        &[
            "d",
            "s",
            "a; d",
            "a; s",
            "d; a",
            "s; a",
            "a; v; d; a",
            "a; v; s; a",
            "a; v; a; s",
            "d; d",
            "d; zz",
            "s; zz",
            "zz; d",
            "zz; s",
            "d; a !version",
            "s; a !version",
            "s; a.x",
            "a !version; d",
            "a.x; s",
        ],
    ),
    // 11, 12 and 13 in each place; the first message that meets one decides.
    (
        "a = A\nb =\n.x = B\n-t = t\nv = { $q }",
        &[
            "zz",
            "t",
            "NUMBER",
            "A",
            "b",
            "a.x",
            "b.y",
            "a !version",
            "a !count",
            "a !left",
            "a !name",
            "a !kind",
            "a !short",
            "a !text",
            "a !number",
            "a !scale",
            "zz.x !version",
            "b !version",
            "a.x !version",
            "a; zz",
            "a; b",
            "a; a !version",
            "zz; a",
            "b; a",
            "a !left; a",
            "a; v; zz; a",
            "a; v; b.y; a",
            "a; v; a !kind; a",
            "a; v; a; t",
            "a; v; a; b",
            "a; v; a; a !short",
            "zz; b",
            "b; zz",
            "zz; a !version",
            "a !version; zz",
            "b; a !version",
            "a !version; b",
            "a; zz; b; a !left",
            "a; a !left; zz; b",
            "a; b; a !left; zz",
            "v; v; t.x; NUMBER",
        ],
    ),
];

/// The source of a sheet of 30 messages, and the sheet.
const THIRTY: (&str, &str) = (
    "a = A\n.x = { $n }\nb = { a } { $n }\nw = { a -> [A] { $n -> [one] o *[other] { b } } *[o] x }\ne = { zz }",
    "a; b n=1; w n=1; e; a.x n=1; a; b n=2; w n=2; e; a.x n=2; a; b n=3; w n=3; e; a.x n=3; \
     a; b; w; e; a.x; a; b n=x; w n=x; e; a.x n=x; a; b n=none; w n=none; e; a.x n=none",
);

/// All of them, the sheet of 30 messages last.
pub fn sheet_points() -> Vec<Sheet> {
    let groups = POINTS.iter();
    let all = groups.flat_map(|(source, sheets)| sheets.iter().map(|rows| sheet(source, rows)));
    all.chain([sheet(THIRTY.0, THIRTY.1)]).collect()
}

/// A sheet of messages of a source, with NUMBER, in English and isolating.
pub fn sheet(source: &str, rows: &str) -> Sheet {
    let rows = rows.split(';').map(str::trim).filter(|r| !r.is_empty());
    Sheet {
        bundle: Bundle {
            locale: 0,
            isolating: true,
            items: vec![
                Item::Function("NUMBER".into()),
                Item::Plain(ftl::resource(source)),
            ],
        },
        rows: rows.map(row).collect(),
    }
}

fn row(source: &str) -> Row {
    let mut words = source.split(' ');
    let name = words.next().expect("an id");
    let (message, attribute) = match name.split_once('.') {
        Some((message, attribute)) => (message, Some(attribute.to_string())),
        None => (name, None),
    };
    let mut values = Vec::new();
    let mut wrong = None;
    for word in words {
        match word.split_once('=') {
            Some((name, text)) => values.push((name.to_string(), value(text))),
            None => wrong = Some(malformed(word)),
        }
    }
    Row {
        message: message.into(),
        attribute,
        arguments: match wrong {
            Some(bytes) => Given::Bytes(bytes),
            None => Given::Values(accepted(&values)),
        },
    }
}

fn value(text: &str) -> Value {
    match literal(text.as_bytes()) {
        Some((number, _)) => Value::Number(number),
        None if text == "none" => Value::None,
        None => Value::Text(text.into()),
    }
}

/// An arguments image that is wrong inside, and only there.
fn malformed(what: &str) -> Vec<u8> {
    let rest: &[u8] = match what {
        "!version" => &[2, 0, 0],
        "!count" => &[1, 0, 1],
        "!left" => &[1, 0, 0, 0],
        "!name" => &[1, 0, 1, 0, 1, b'1', 3],
        "!kind" => &[1, 0, 1, 0, 1, b'n', 4],
        "!short" => &[1, 0, 1, 0, 1, b'n', 1, 0, 2, b'x'],
        "!text" => &[1, 0, 1, 0, 1, b'n', 1, 0, 1, 0xFF],
        "!number" => &[1, 0, 1, 0, 1, b'n', 2, 2, 0, 0, 0, 0, 0, 0, 0, 1, 0],
        "!scale" => &[1, 0, 1, 0, 1, b'n', 2, 0, 0, 0, 0, 0, 0, 0, 0, 1, 15],
        _ => panic!("no such wrong thing: {what}"),
    };
    let mut out = Vec::new();
    out.u32(4 + rest.len());
    out.raw(rest);
    out
}
