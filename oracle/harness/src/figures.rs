//! Formattings and sheets whose workspace figures were worked out by hand from
//! document 01's words, with the workings.

mod formattings;
mod sheets;

use crate::case::{Bundle, Case, Item, Sheet, Value};
use crate::ftl;
use crate::model::number::literal;
use crate::sheet_points::sheet;
use formattings::{ISOLATING, PLAIN};
use sheets::SHEETS;

/// A formatting and its figure.
pub struct Formatting {
    pub case: Case,
    pub figure: usize,
}

/// A sheet and its figure.
pub struct Printed {
    pub sheet: Sheet,
    pub figure: usize,
}

/// What the sources refer to: one byte, six bytes, three bytes, and a term that
/// gives its argument.
const WORDS: &str = "p = p\nw = кит\n-t = ttt\n-v = { $n }";

/// With the placeable that leads to it, `g` has 101 placeables: ten `h` with
/// nine each, and that one.
const FAN: &str = r#"
    g = { h }{ h }{ h }{ h }{ h }{ h }{ h }{ h }{ h }{ h }
    h = { "w" }{ "w" }{ "w" }{ "w" }{ "w" }{ "w" }{ "w" }{ "w" }{ "w" }"#;

/// All formattings: of `a`, in English, with NUMBER; `n` is the text `two`, `s`
/// the text `кит`, `k` is 12, `m` is none, and `q` is missing.
pub fn formattings() -> Vec<Formatting> {
    let plain = PLAIN.iter().map(|point| formatting(false, point));
    let isolating = ISOLATING.iter().map(|point| formatting(true, point));
    plain.chain(isolating).collect()
}

fn formatting(isolating: bool, (figure, source): &(usize, &str)) -> Formatting {
    let number = literal(b"12").expect("a number").0;
    let mut items = vec![
        Item::Function("NUMBER".into()),
        Item::Plain(ftl::resource(source)),
        Item::Plain(ftl::resource(WORDS)),
    ];
    if source.contains("g }") || source.contains("g,") || source.contains("g -") {
        items.push(Item::Plain(ftl::resource(FAN)));
    }
    Formatting {
        case: Case {
            bundle: Bundle {
                locale: 0,
                isolating,
                items,
            },
            message: "a".into(),
            attribute: None,
            arguments: vec![
                ("k".into(), Value::Number(number)),
                ("m".into(), Value::None),
                ("n".into(), Value::Text("two".into())),
                ("s".into(), Value::Text("кит".into())),
            ],
        },
        figure: *figure,
    }
}

/// All sheets, with NUMBER, in English and isolating.
pub fn sheets() -> Vec<Printed> {
    let all = SHEETS.iter().map(|(figure, source, rows)| Printed {
        sheet: sheet(source, rows),
        figure: *figure,
    });
    all.collect()
}
