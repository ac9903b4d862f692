//! The records of an error list.

use crate::bytes::Write;

pub const MESSAGE: u8 = 1;
pub const TERM: u8 = 2;
pub const FUNCTION: u8 = 3;
pub const VARIABLE: u8 = 4;

fn record(rest: Vec<u8>) -> Vec<u8> {
    let mut out = Vec::new();
    out.str(rest);
    out
}

pub fn overriding(kind: u8, id: &[u8]) -> Vec<u8> {
    let mut rest = vec![1, kind];
    rest.str(id);
    record(rest)
}

pub fn reference(kind: u8, id: &[u8], attribute: Option<&[u8]>) -> Vec<u8> {
    let mut rest = vec![2, kind];
    rest.str(id);
    rest.flag(attribute.is_some());
    if let Some(attribute) = attribute {
        rest.str(attribute);
    }
    record(rest)
}

pub fn no_value(id: &[u8]) -> Vec<u8> {
    let mut rest = vec![3];
    rest.str(id);
    record(rest)
}

pub fn missing_default() -> Vec<u8> {
    record(vec![4])
}

pub fn cyclic() -> Vec<u8> {
    record(vec![5])
}

pub fn too_many_placeables() -> Vec<u8> {
    record(vec![6])
}

/// A whole list: header and records.
pub fn list(records: &[Vec<u8>]) -> Vec<u8> {
    let mut out = Vec::new();
    out.u32(5 + records.iter().map(Vec::len).sum::<usize>());
    out.u8(1);
    for record in records {
        out.raw(record);
    }
    out
}
