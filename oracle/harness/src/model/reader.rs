//! The small reader of document 01's layouts and of document 02's sheet image:
//! what it reads is well-formed.

mod fields;
mod shapes;
mod tree;

use fields::Reader;

pub use super::escapes::unescape;
pub use fields::is_id;
pub use tree::{
    Arguments, Element, Entry, Expression, Given, Id, Inline, Item, Key, Pattern, Row, Store,
    Variant,
};

const STORE_LIMIT: usize = 1_048_576;
const IMAGE_LIMIT: usize = 65_536;
const SHEET_LIMIT: usize = 1_048_576;

/// A store at the front of a slice that may be longer; `None` is refusal 4.
pub fn store(slice: &[u8]) -> Option<Store> {
    let used = Reader::whole(slice).u32()?;
    if used > STORE_LIMIT {
        return None;
    }
    let mut r = Reader::whole(slice.get(..used)?);
    r.u32()?;
    r.exactly(1)?;
    let locale = r.at_most(3)?;
    let isolating = r.flag()?;
    let count = r.u16()?;
    if count > 256 {
        return None;
    }
    let items = r.times(count, Reader::item)?;
    r.done()?;
    Some(Store {
        used,
        locale,
        isolating,
        items,
    })
}

/// A resource image that is the whole slice; `None` is refusal 5.
pub fn resource(slice: &[u8]) -> Option<Vec<Entry>> {
    if slice.len() > IMAGE_LIMIT {
        return None;
    }
    let mut r = Reader::whole(slice);
    if r.u32()? != slice.len() {
        return None;
    }
    r.exactly(1)?;
    let count = r.u16()?;
    let entries = r.times(count, Reader::entry)?;
    r.done()?;
    Some(entries)
}

/// An arguments image that is the whole slice, with its names in any order; `None`
/// is refusal 13.
pub fn arguments(slice: &[u8]) -> Option<Vec<(Id, Given)>> {
    if slice.len() > IMAGE_LIMIT {
        return None;
    }
    let mut r = Reader::whole(slice);
    if r.u32()? != slice.len() {
        return None;
    }
    r.exactly(1)?;
    let count = r.u16()?;
    let arguments = r.times(count, |r| Some((r.id()?, r.given()?)))?;
    r.done()?;
    Some(arguments)
}

/// A sheet image that is the whole slice; `None` is refusal 18. Of an arguments
/// image only its length is judged, which its own first four bytes state.
pub fn sheet(slice: &[u8]) -> Option<Vec<Row>> {
    if slice.len() > SHEET_LIMIT {
        return None;
    }
    let mut r = Reader::whole(slice);
    if r.u32()? != slice.len() {
        return None;
    }
    r.exactly(1)?;
    let count = r.u16()?;
    let rows = r.times(count, |r| {
        let message = r.id()?;
        let attribute = r.optional_id()?;
        let start = r.at;
        let length = r.u32().filter(|n| (7..=IMAGE_LIMIT).contains(n))?;
        r.at = start;
        let arguments = r.take(length)?.to_vec();
        Some(Row {
            message,
            attribute,
            arguments,
        })
    })?;
    r.done()?;
    Some(rows)
}
