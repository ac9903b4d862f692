//! What a sheet must give: each message's own answer, joined.

use super::{same, Both};
use crate::case::{Given, Sheet, Value};
use crate::encode;
use crate::model::effects::Lengths;
use crate::model::reader;
use crate::model::sheet::{join, prepare, Joined, Prepared, Refused};
use crate::rust;

pub struct ExpectedSheet {
    pub store: Vec<u8>,
    pub sheet: Vec<u8>,
    /// What its messages do, or the refusal before any.
    pub prepared: Prepared,
    /// With ample buffers.
    pub answer: Result<Joined, Refused>,
    /// All texts and errors are the Rust's own.
    pub from_rust: bool,
}

impl ExpectedSheet {
    /// The answer with these lengths.
    pub fn with(&self, lengths: Lengths) -> Result<Joined, Refused> {
        join(&self.prepared, lengths)
    }
}

/// The expected answer of a sheet, or what differs between model and Rust.
pub fn expected_sheet(sheet: &Sheet) -> Result<ExpectedSheet, String> {
    let store = encode::store(&sheet.bundle);
    let image = sheet.image();
    let prepared = prepare(&store, &image);
    let answer = join(&prepared, Lengths::AMPLE);
    let both = Both {
        model: reader::store(&store).ok_or("the store is refused")?,
        rust: rust::bundle(&sheet.bundle),
    };
    let (mut text, mut records, mut from_rust) = (Vec::new(), Vec::new(), true);
    for row in &sheet.rows {
        let Some(given) = values(&row.arguments) else {
            continue;
        };
        let said = both.message(&row.message, &row.attribute, &given)?;
        from_rust &= said.from_rust;
        if let Ok(message) = said.answer {
            text.extend(message.text);
            records.extend(message.list[5..].to_vec());
        }
    }
    if let Ok(joined) = &answer {
        same("texts", &joined.text, &text)?;
        same("records", &joined.list[5..], &records[..])?;
    }
    Ok(ExpectedSheet {
        store,
        sheet: image,
        prepared,
        answer,
        from_rust,
    })
}

/// The values that the Rust can be given; none where the bytes are no image.
fn values(given: &Given) -> Option<Vec<(String, Value)>> {
    let bytes = match given {
        Given::Values(values) => return Some(values.clone()),
        Given::Bytes(bytes) => bytes,
    };
    let text = |bytes| String::from_utf8(bytes).expect("it was read as text");
    let value = |given| match given {
        reader::Given::Text(bytes) => Value::Text(text(bytes)),
        reader::Given::Number(decimal) => Value::Number(decimal),
        reader::Given::None => Value::None,
    };
    let given = reader::arguments(bytes)?.into_iter();
    Some(given.map(|(id, v)| (text(id), value(v))).collect())
}
