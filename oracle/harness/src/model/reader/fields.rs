//! The reader of bytes and its fields, from integers to ids and literals.

use super::Id;
use crate::model::escapes::unescape;
use crate::model::number::literal;

/// Document 01's Id, without its length.
pub fn is_id(bytes: &[u8]) -> bool {
    let letter = bytes.first().is_some_and(u8::is_ascii_alphabetic);
    let rest = |b: &u8| b.is_ascii_alphanumeric() || *b == b'-' || *b == b'_';
    letter && bytes.len() <= 255 && bytes.iter().all(rest)
}

pub(super) struct Reader<'a> {
    pub(super) bytes: &'a [u8],
    pub(super) at: usize,
}

impl<'a> Reader<'a> {
    pub(super) fn whole(bytes: &'a [u8]) -> Self {
        Self { bytes, at: 0 }
    }

    pub(super) fn take(&mut self, length: usize) -> Option<&'a [u8]> {
        let taken = self.bytes.get(self.at..self.at.checked_add(length)?)?;
        self.at += length;
        Some(taken)
    }

    pub(super) fn done(&self) -> Option<()> {
        (self.at == self.bytes.len()).then_some(())
    }

    pub(super) fn u8(&mut self) -> Option<u8> {
        Some(self.take(1)?[0])
    }

    pub(super) fn number(&mut self, bytes: usize) -> Option<u64> {
        let bytes = self.take(bytes)?;
        Some(bytes.iter().fold(0, |n, b| n << 8 | u64::from(*b)))
    }

    pub(super) fn u16(&mut self) -> Option<usize> {
        Some(self.number(2)? as usize)
    }

    pub(super) fn u32(&mut self) -> Option<usize> {
        Some(self.number(4)? as usize)
    }

    pub(super) fn at_most(&mut self, most: u8) -> Option<u8> {
        self.u8().filter(|n| *n <= most)
    }

    pub(super) fn exactly(&mut self, wanted: u8) -> Option<()> {
        self.u8().filter(|n| *n == wanted).map(drop)
    }

    pub(super) fn flag(&mut self) -> Option<bool> {
        Some(self.at_most(1)? == 1)
    }

    pub(super) fn times<T>(
        &mut self,
        count: usize,
        mut one: impl FnMut(&mut Self) -> Option<T>,
    ) -> Option<Vec<T>> {
        let mut all = Vec::new();
        for _ in 0..count {
            all.push(one(self)?);
        }
        Some(all)
    }

    fn bytes_of_str(&mut self) -> Option<Vec<u8>> {
        let length = self.u16()?;
        Some(self.take(length)?.to_vec())
    }

    pub(super) fn text(&mut self) -> Option<Vec<u8>> {
        self.bytes_of_str()
            .filter(|t| std::str::from_utf8(t).is_ok())
    }

    pub(super) fn id(&mut self) -> Option<Id> {
        self.bytes_of_str().filter(|id| is_id(id))
    }

    pub(super) fn optional_id(&mut self) -> Option<Option<Id>> {
        match self.flag()? {
            true => Some(Some(self.id()?)),
            false => Some(None),
        }
    }

    pub(super) fn string_literal(&mut self) -> Option<Vec<u8>> {
        self.text().filter(|t| unescape(t).is_some())
    }

    pub(super) fn number_literal(&mut self) -> Option<Vec<u8>> {
        self.bytes_of_str().filter(|t| literal(t).is_some())
    }
}
