//! The operations of document 01 with their refusals, in order.

use super::arguments;
use super::effects::{run, Finished, Lengths};
use super::errors;
use super::lookup::{holder, part, Holder};
use super::reader::{self, is_id};
use super::resolve::{resolve, Resolution};
use crate::bytes::Write;

const STORE_LIMIT: usize = 1_048_576;

/// New bundle: fills the front of the slice.
pub fn new(slice: &mut [u8], locale: u8, isolating: u8) -> Result<(), u8> {
    if slice.len() < 9 {
        return Err(1);
    }
    if locale > 3 {
        return Err(2);
    }
    if isolating > 1 {
        return Err(3);
    }
    slice[..9].copy_from_slice(&[0, 0, 0, 9, 1, locale, isolating, 0, 0]);
    Ok(())
}

/// Puts an item after the others, if it fits.
fn append(slice: &mut [u8], store: &reader::Store, item: &[u8]) -> Result<(), u8> {
    let end = store.used + item.len();
    if end > slice.len() || end > STORE_LIMIT || store.items.len() == 256 {
        return Err(6);
    }
    slice[store.used..end].copy_from_slice(item);
    slice[..4].copy_from_slice(&(end as u32).to_be_bytes());
    slice[7..9].copy_from_slice(&(store.items.len() as u16 + 1).to_be_bytes());
    Ok(())
}

/// Add resource, plain if there is a list: gives the count of records.
pub fn add_resource(slice: &mut [u8], image: &[u8], list: Option<&mut [u8]>) -> Result<usize, u8> {
    let store = reader::store(slice).ok_or(4)?;
    let entries = reader::resource(image).ok_or(5)?;
    let mut records = Vec::new();
    if list.is_some() {
        for (at, entry) in entries.iter().enumerate() {
            let held = holder(&store, &entry.id).is_some();
            if held || entries[..at].iter().any(|e| e.id == entry.id) {
                records.push(errors::overriding(
                    if entry.term { 2 } else { 1 },
                    &entry.id,
                ));
            }
        }
    }
    let mut item = vec![if list.is_some() { 1 } else { 2 }];
    item.raw(image);
    // The slice is tried on a copy: 7 comes after 6 and changes nothing.
    let mut after = slice.to_vec();
    append(&mut after, &store, &item)?;
    if let Some(list) = list {
        let bytes = errors::list(&records);
        list.get_mut(..bytes.len())
            .ok_or(7)?
            .copy_from_slice(&bytes);
    }
    slice.copy_from_slice(&after);
    Ok(records.len())
}

/// Add function.
pub fn add_function(slice: &mut [u8], id: &[u8], code: u8) -> Result<(), u8> {
    let store = reader::store(slice).ok_or(4)?;
    if !is_id(id) {
        return Err(8);
    }
    if code != 1 {
        return Err(9);
    }
    if holder(&store, id).is_some() {
        return Err(10);
    }
    let mut item = vec![3];
    item.u32(8 + id.len());
    item.u8(1);
    item.u8(code);
    item.str(id);
    append(slice, &store, &item)
}

/// The part of a formatting before its run: what it does, or a refusal.
pub fn prepare(
    slice: &[u8],
    message: &[u8],
    attribute: Option<&[u8]>,
    arguments: &[u8],
) -> Result<Resolution, u8> {
    let store = reader::store(slice).ok_or(4)?;
    if !is_id(message) || !attribute.is_none_or(is_id) {
        return Err(8);
    }
    message_of(&store, message, attribute, arguments)
}

/// The same from a store that is well-formed, of ids that are Ids: 11, 12, 13, 19.
pub fn message_of(
    store: &reader::Store,
    message: &[u8],
    attribute: Option<&[u8]>,
    image: &[u8],
) -> Result<Resolution, u8> {
    let entry = holder(store, message).and_then(Holder::message).ok_or(11)?;
    let pattern = part(entry, &attribute.map(<[u8]>::to_vec)).ok_or(12)?;
    let given = arguments::accepted(image)?;
    Ok(resolve(store, &given, pattern))
}

/// Format, as far as it answers; `prepared` comes from `prepare`.
pub fn format(prepared: &Result<Resolution, u8>, lengths: Lengths) -> Result<Finished, u8> {
    let resolution = prepared.as_ref().map_err(|refusal| *refusal)?;
    if lengths.list < 5 {
        return Err(7);
    }
    run(&resolution.effects, lengths)
}

/// The whole operation on three lent buffers.
pub fn format_in(
    prepared: &Result<Resolution, u8>,
    text: &mut [u8],
    list: &mut [u8],
    workspace: &mut [u8],
) -> Result<Finished, u8> {
    let lengths = Lengths {
        text: text.len(),
        list: list.len(),
        workspace: workspace.len(),
    };
    let answer = format(prepared, lengths);
    match &answer {
        Ok(done) => {
            text[..done.text.len()].copy_from_slice(&done.text);
            list[..done.list.len()].copy_from_slice(&done.list);
            workspace.fill(0);
        }
        // Met in the run; before it nothing changes.
        Err(_) if prepared.is_ok() && lengths.list >= 5 => {
            text.fill(0);
            list.fill(0);
            workspace.fill(0);
        }
        Err(_) => {}
    }
    answer
}
