//! Formattings and sheets whose texts and workspace figures were worked out by hand
//! from document 02's Card 3: the dot of a number stands only where digits follow it,
//! and its plural category and equality are as before. In sources `min:` stands for
//! `minimumFractionDigits:` and `«N x»` for N times x; in texts ⟨ and ⟩ stand for
//! U+2068 and U+2069, and `[N x]` for N times x.

mod damaged;
mod lent;
mod numbers;
mod places;
mod sheets;

use crate::case::{Bundle, Case, Item, Sheet, Value};
use crate::encode;
use crate::ftl;
use crate::model::effects::Lengths;
use crate::model::number::literal;
use crate::nesting::{repeated, written};
use crate::sheet_points;
pub use damaged::Part;
use damaged::CHANGES;
use lent::{LENT, LENT_SHEETS};
use numbers::{CATEGORIES, NUMBERS};
use places::{CUT, FAN, ISOLATING, PLAIN, WHOLE};
use sheets::{REFUSED, SHEETS, SOURCE};

/// A formatting, its text, and its figure.
pub struct Formatting {
    pub case: Case,
    pub text: String,
    pub figure: usize,
    /// A 101st placeable is begun.
    pub cut: bool,
}

/// A sheet, and its text and figure, or its refusal.
pub struct Printed {
    pub sheet: Sheet,
    pub said: Result<(String, usize), u8>,
}

/// A formatting with lent lengths, and its answer.
pub struct Lent {
    pub case: Case,
    pub lengths: Lengths,
    pub answer: u8,
}

/// A sheet, likewise.
pub struct LentSheet {
    pub sheet: Sheet,
    pub lengths: Lengths,
    pub answer: u8,
}

/// The bytes of a formatting of `a`, some of them changed, and its text or its
/// refusal.
pub struct Changed {
    pub part: Part,
    pub store: Vec<u8>,
    pub arguments: Vec<u8>,
    pub said: Result<&'static str, u8>,
}

/// What a source may ask for; `s` is a text, `v` is none, and `q` is missing.
const GIVEN: [(&str, &str); 10] = [
    ("c", "100"),
    ("d", "0.00000000000001"),
    ("e", "9.99999999999999"),
    ("h", "5.5"),
    ("k", "0.5"),
    ("l", "999999999999999"),
    ("n", "5"),
    ("o", "-0"),
    ("u", "-5"),
    ("z", "0"),
];

/// So many of the formattings, the first ones, have one number or one choice, and
/// nothing else.
pub const LONE: usize = NUMBERS.len() + CATEGORIES.len();

/// All formattings, of `a` and with NUMBER.
pub fn formattings() -> Vec<Formatting> {
    let mut all = Vec::new();
    for (number, minimum, text) in NUMBERS {
        let minimum = match minimum {
            "" => String::new(),
            word => format!(", min: {word}"),
        };
        let source = format!("a = {{ NUMBER({number}{minimum}) }}");
        all.push(formatting(0, true, &source, (0, text)));
    }
    for (locale, selector, category) in CATEGORIES {
        let variants = "[zero] zero [one] one [two] two [few] few [many] many *[other] other";
        let source = format!("a = {{ {selector} -> {variants} }}");
        all.push(formatting(locale, true, &source, (0, category)));
    }
    for (figure, source, text) in ISOLATING {
        all.push(formatting(0, true, source, (figure, text)));
    }
    for (figure, source, text) in PLAIN {
        all.push(formatting(0, false, source, (figure, text)));
    }
    for (figure, source, text) in WHOLE {
        all.push(formatting(0, true, &with_fan(source), (figure, text)));
    }
    for (figure, source, text) in CUT {
        all.push(Formatting {
            cut: true,
            ..formatting(0, true, &with_fan(source), (figure, text))
        });
    }
    all
}

/// All formattings with lent lengths.
pub fn lent() -> Vec<Lent> {
    let all = LENT.iter().map(|(source, lengths, answer)| Lent {
        case: case(0, false, &with_fan(source)),
        lengths: lengths_of(*lengths),
        answer: *answer,
    });
    all.collect()
}

/// All sheets.
pub fn sheets() -> Vec<Printed> {
    let finished = SHEETS.iter().map(|(figure, rows, text)| Printed {
        sheet: sheet(rows),
        said: Ok((written(text), *figure)),
    });
    let refused = REFUSED.iter().map(|(rows, answer)| Printed {
        sheet: sheet(rows),
        said: Err(*answer),
    });
    finished.chain(refused).collect()
}

/// All sheets with lent lengths.
pub fn lent_sheets() -> Vec<LentSheet> {
    let all = LENT_SHEETS.iter().map(|(rows, lengths, answer)| LentSheet {
        sheet: sheet(&format!("plain:{rows}")),
        lengths: lengths_of(*lengths),
        answer: *answer,
    });
    all.collect()
}

/// All formattings with changed bytes.
pub fn changed() -> Vec<Changed> {
    let all = CHANGES.iter().map(|(source, part, from, to, said)| {
        let case = case(0, true, source);
        let mut store = encode::store(&case.bundle);
        let mut arguments = encode::arguments(&case.arguments);
        match part {
            Part::Store => change(&mut store, from, to),
            Part::Arguments => change(&mut arguments, from, to),
        }
        Changed {
            part: *part,
            store,
            arguments,
            said: *said,
        }
    });
    all.collect()
}

/// Puts other bytes in the place of those that stand there once.
pub(crate) fn change(bytes: &mut [u8], from: &[u8], to: &[u8]) {
    let places = bytes.windows(from.len()).enumerate();
    let places = places.filter(|(_, window)| *window == from);
    let places: Vec<usize> = places.map(|(at, _)| at).collect();
    let [at] = places[..] else {
        panic!("{from:02x?} stands at {places:?}")
    };
    bytes[at..at + from.len()].copy_from_slice(to);
}

fn formatting(
    locale: u8,
    isolating: bool,
    source: &str,
    (figure, text): (usize, &str),
) -> Formatting {
    Formatting {
        case: case(locale, isolating, source),
        text: written(text),
        figure,
        cut: false,
    }
}

fn lengths_of([text, list, workspace]: [usize; 3]) -> Lengths {
    Lengths {
        text,
        list,
        workspace,
    }
}

/// A source with `g` and `h`, if it refers to one of them.
fn with_fan(source: &str) -> String {
    let refers = ["h }", "g }", "g,", "g -"].iter();
    match refers.clone().any(|name| source.contains(name)) {
        true => source.to_string() + FAN,
        false => source.into(),
    }
}

/// The words of a source, written out.
fn spelled(source: &str) -> String {
    repeated(source).replace("min:", "minimumFractionDigits:")
}

fn case(locale: u8, isolating: bool, source: &str) -> Case {
    let number = |text: &str| Value::Number(literal(text.as_bytes()).expect("a number").0);
    let mut given: Vec<(&str, Value)> = GIVEN.map(|(name, text)| (name, number(text))).to_vec();
    given.push(("s", Value::Text("5".into())));
    given.push(("v", Value::None));
    let asked = |name: &str| source.contains(&format!("${name}"));
    let given = given.into_iter().filter(|(name, _)| asked(name));
    Case {
        bundle: Bundle {
            locale,
            isolating,
            items: vec![
                Item::Function("NUMBER".into()),
                Item::Plain(ftl::resource(&spelled(source))),
            ],
        },
        message: "a".into(),
        attribute: None,
        arguments: given.map(|(name, value)| (name.into(), value)).collect(),
    }
}

/// A sheet whose rows may begin with `plain:` or a locale.
fn sheet(rows: &str) -> Sheet {
    let (kind, rows) = rows.split_once(':').unwrap_or(("", rows));
    let ids = rows.split(';').map(str::trim);
    let source = match ids.clone().any(|id| ["c", "i", "v"].contains(&id)) {
        true => [SOURCE, sheets::CUT, FAN].concat(),
        false => SOURCE.into(),
    };
    let mut sheet = sheet_points::sheet(&spelled(&source), rows);
    sheet.bundle.isolating = kind != "plain";
    sheet.bundle.locale = match kind {
        "da" => 1,
        "ru" => 2,
        "cy" => 3,
        _ => 0,
    };
    sheet
}
