//! Arguments images, formattings and sheets with their answers, worked out by hand
//! from document 02's Card 2: the order of names, least scales, and which refusal
//! comes first.

mod calls;
mod images;
mod largest;
mod notation;

use crate::case::{Bundle, Item};
use crate::encode;
use crate::ftl;
use crate::model::effects::Lengths;
use crate::model::reader::Row;
use calls::{CALLS, SHEETS, SOURCE};
use images::IMAGES;
pub use largest::{largest, Large};
pub use notation::image;

/// An arguments image and its answer: 0, 13 or 19.
pub struct Image {
    pub words: &'static str,
    pub bytes: Vec<u8>,
    pub answer: u8,
}

/// All images.
pub fn images() -> Vec<Image> {
    let all = IMAGES.iter().flat_map(|(answer, group)| {
        group.iter().map(|words| Image {
            words,
            bytes: image(words),
            answer: *answer,
        })
    });
    all.collect()
}

/// What is lent of text and list for each of the five answers of a call.
const LENT: [(usize, usize); 5] = [(40, 0), (40, 4), (40, 5), (40, 40), (0, 40)];

/// A formatting, what it is lent, and its answer.
pub struct Formatting {
    pub words: String,
    pub store: Vec<u8>,
    pub id: Vec<u8>,
    pub attribute: Option<Vec<u8>>,
    pub arguments: Vec<u8>,
    pub lengths: Lengths,
    pub answer: u8,
}

/// All formattings: a message or `message.attribute` of the source; `!` before it
/// is for a malformed store.
pub fn formattings() -> Vec<Formatting> {
    let mut all = Vec::new();
    for (asked, words, answers) in CALLS {
        for (lengths, answer) in lent(answers) {
            let name = asked.trim_start_matches('!');
            let (id, attribute) = message(name);
            all.push(Formatting {
                words: format!("{asked} {words}"),
                store: match name == asked {
                    true => store(),
                    false => [&store()[..8], &[9]].concat(),
                },
                id,
                attribute,
                arguments: image(words),
                lengths,
                answer,
            });
        }
    }
    all
}

/// A sheet, what it is lent, and its answer.
pub struct Printed {
    pub words: &'static str,
    pub store: Vec<u8>,
    pub sheet: Vec<u8>,
    pub lengths: Lengths,
    pub answer: u8,
}

/// All sheets: rows with `;` between them, each a message and its arguments.
pub fn sheets() -> Vec<Printed> {
    let mut all = Vec::new();
    for (words, answers) in SHEETS {
        for (lengths, answer) in lent(answers) {
            let rows: Vec<_> = words.split(';').map(row).collect();
            all.push(Printed {
                words,
                store: store(),
                sheet: encode::sheet(&rows),
                lengths,
                answer,
            });
        }
    }
    all
}

/// Each answer with the lengths that it is for.
fn lent(answers: [u8; 5]) -> impl Iterator<Item = (Lengths, u8)> {
    let lengths = LENT.map(|(text, list)| Lengths {
        text,
        list,
        workspace: 3,
    });
    lengths.into_iter().zip(answers)
}

fn row(words: &str) -> Row {
    let words = words.trim();
    let (asked, given) = words.split_once(' ').unwrap_or((words, ""));
    let (message, attribute) = message(asked);
    Row {
        message,
        attribute,
        arguments: image(given),
    }
}

/// A message's id, and the attribute behind a dot.
fn message(asked: &str) -> (Vec<u8>, Option<Vec<u8>>) {
    match asked.split_once('.') {
        Some((id, attribute)) => (id.into(), Some(attribute.into())),
        None => (asked.into(), None),
    }
}

/// The store of the source, with NUMBER, in English and without isolation.
pub fn store() -> Vec<u8> {
    encode::store(&Bundle {
        locale: 0,
        isolating: false,
        items: vec![
            Item::Function("NUMBER".into()),
            Item::Plain(ftl::resource(SOURCE)),
        ],
    })
}
