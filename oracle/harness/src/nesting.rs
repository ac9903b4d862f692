//! Formattings and sheets whose texts were worked out by hand from document 01's
//! words, for Card 12: where isolates arise, nest and are cut short, and what an
//! input with marks gives. In sources and texts ⟨ and ⟩ stand for U+2068 and
//! U+2069.

mod formattings;
mod marked;
mod sheets;

use crate::case::{Bundle, Case, Item, Sheet, Value};
use crate::ftl;
use crate::model::number::literal;
use crate::model::premises::Kind;
use crate::sheet_points;
use formattings::{ISOLATING, PLAIN};
use marked::{MARKED, MARKED_SHEETS};
use sheets::SHEETS;

/// A formatting and its text.
pub struct Formatting {
    pub case: Case,
    pub said: Said,
}

/// A sheet and its text.
pub struct Printed {
    pub sheet: Sheet,
    pub said: Said,
}

pub struct Said {
    pub text: String,
    /// What has marks in the input, if anything has.
    pub marked: Option<Kind>,
    pub paired: bool,
}

/// What the sources refer to: a message, a term, a term that gives its argument,
/// and a message and a term with an isolate.
const WORDS: &str = "p = p\n-t = t\n-v = { $n }\ni = x{ $n }\n-r = r{ $n }";

/// With the placeable that leads to it, `g` has 101 placeables: ten `h` with
/// nine each, and that one. So has `k`, with isolates.
const FAN: &str = r#"
    g = { h }{ h }{ h }{ h }{ h }{ h }{ h }{ h }{ h }{ h }
    h = { "w" }{ "w" }{ "w" }{ "w" }{ "w" }{ "w" }{ "w" }{ "w" }{ "w" }"#;
const ISOLATED_FAN: &str = "
    k = { { j } }{ { j } }{ { j } }{ { j } }{ { j } }{ { j } }{ { j } }{ { j } }{ { j } }{ { j } }
    j = { $n }{ $n }{ $n }{ $n }{ $n }{ $n }{ $n }{ $n }{ $n }";

/// All formattings: of `a`, in English, with NUMBER; `n` is 2, `s` the text
/// `Витязь`, `h` the text `נח`, `m` is none, and `q` is missing.
pub fn formattings() -> Vec<Formatting> {
    let unmarked = |isolating| {
        move |(source, text): &(&str, &str)| Formatting {
            case: case(isolating, source, None),
            said: Said {
                text: written(text),
                marked: None,
                paired: true,
            },
        }
    };
    let marked = MARKED.iter().map(|point| Formatting {
        case: case(point.isolating, point.source, point.given),
        said: Said {
            text: written(point.text),
            marked: Some(point.kind),
            paired: point.paired,
        },
    });
    let isolating = ISOLATING.iter().map(unmarked(true));
    let plain = PLAIN.iter().map(unmarked(false));
    isolating.chain(plain).chain(marked).collect()
}

/// `v` is given if it is not none.
fn case(isolating: bool, source: &str, v: Option<&str>) -> Case {
    let two = literal(b"2").expect("a number").0;
    let mut arguments = vec![
        ("h".into(), Value::Text("נח".into())),
        ("m".into(), Value::None),
        ("n".into(), Value::Number(two)),
        ("s".into(), Value::Text("Витязь".into())),
    ];
    arguments.extend(v.map(|v| ("v".into(), Value::Text(written(v)))));
    Case {
        bundle: Bundle {
            locale: 0,
            isolating,
            items: vec![
                Item::Function("NUMBER".into()),
                Item::Plain(ftl::resource(&with_fans(source))),
                Item::Plain(ftl::resource(WORDS)),
            ],
        },
        message: "a".into(),
        attribute: None,
        arguments,
    }
}

/// A source, with the entries of a fan that it refers to. `<N>` in it stands for N
/// times `{ $n }`, and `«N x»` for N times x.
fn with_fans(source: &str) -> String {
    let mut source = marks(source);
    while let Some(at) = source.find('<') {
        let end = at + source[at..].find('>').expect("its end");
        let count = source[at + 1..end].parse().expect("a number");
        source.replace_range(at..=end, &"{ $n }".repeat(count));
    }
    let source = repeated(&source);
    let refers = |name: &str| {
        [" }", ")", " -"]
            .iter()
            .any(|end| source.contains(&format!("{name}{end}")))
    };
    let mut all = source.clone();
    if refers("g") || refers("h") && !source.contains("$h") {
        all += FAN;
    }
    if refers("k") {
        all += ISOLATED_FAN;
    }
    all
}

/// A source in which `«N x»` stands for N times x.
pub(crate) fn repeated(source: &str) -> String {
    let mut source = source.to_string();
    while let Some(at) = source.find('«') {
        let end = at + source[at..].find('»').expect("its end");
        let (count, unit) = source[at + '«'.len_utf8()..end]
            .split_once(' ')
            .expect("a unit");
        let all = unit.repeat(count.parse().expect("a number"));
        source.replace_range(at..end + '»'.len_utf8(), &all);
    }
    source
}

/// All sheets, with NUMBER, in English.
pub fn sheets() -> Vec<Printed> {
    let unmarked = SHEETS.iter().map(|(source, rows, text)| Printed {
        sheet: sheet(source, rows),
        said: Said {
            text: written(text),
            marked: None,
            paired: true,
        },
    });
    let marked = MARKED_SHEETS
        .iter()
        .map(|(kind, paired, source, rows, text)| Printed {
            sheet: sheet(source, rows),
            said: Said {
                text: written(text),
                marked: Some(*kind),
                paired: *paired,
            },
        });
    unmarked.chain(marked).collect()
}

/// A sheet whose rows may begin with `plain:`, which is without isolation.
fn sheet(source: &str, rows: &str) -> Sheet {
    let (isolating, rows) = match rows.strip_prefix("plain:") {
        Some(rows) => (false, rows),
        None => (true, rows),
    };
    let mut sheet = sheet_points::sheet(&with_fans(source), &marks(rows));
    sheet.bundle.isolating = isolating;
    sheet
}

fn marks(text: &str) -> String {
    text.replace('⟨', "\u{2068}").replace('⟩', "\u{2069}")
}

/// A text as it is: `[N x]` in it stands for N times x, also in one another.
pub(crate) fn written(text: &str) -> String {
    let mut text = marks(text);
    while let Some(at) = text.rfind('[') {
        let end = at + text[at..].find(']').expect("its end");
        let (count, unit) = text[at + 1..end].split_once(' ').expect("a unit");
        let all = unit.repeat(count.parse().expect("a number"));
        text.replace_range(at..=end, &all);
    }
    text
}
