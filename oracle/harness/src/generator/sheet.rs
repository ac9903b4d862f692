//! Seeded sheets: some messages of one bundle, each with arguments of its own.

use super::words::{ATTRIBUTES, IDS};
use super::{held_messages, Maker};
use crate::bytes::Write;
use crate::case::{Given, Row, Sheet};
use crate::encode;

/// The sheet of a seed.
pub fn sheet_generator(seed: u64) -> Sheet {
    Maker::new(seed ^ 0x5EE7 << 40).sheet()
}

/// A message that holds its id: id, whether there is a value, attributes.
pub(super) type Held = (String, bool, Vec<String>);

impl Maker {
    /// A sheet of 0 to 40 messages; once in 2,000 times of some thousands.
    pub fn sheet(&mut self) -> Sheet {
        let mut bundle = self.bundle();
        let mut held = held_messages(&bundle);
        while held.is_empty() && !self.r.one_in(40) {
            bundle = self.bundle();
            held = held_messages(&bundle);
        }
        let count = match self.r.below(10) {
            _ if self.r.one_in(2000) => 2000 + self.r.below(4000),
            0 => self.r.below(2),
            1..=4 => 1 + self.r.below(4),
            5..=8 => 2 + self.r.below(12),
            _ => 10 + self.r.below(31),
        };
        let mut rows: Vec<Row> = (0..count).map(|_| self.row(&held)).collect();
        // One message in one sheet of three is made wrong, at any place.
        if count > 0 && self.r.one_in(3) {
            let at = self.r.below(count);
            self.spoil(&mut rows[at]);
        }
        Sheet { bundle, rows }
    }

    /// A message that is there, if there is one.
    pub(super) fn row(&mut self, held: &[Held]) -> Row {
        let (mut message, mut attribute) = ("a".to_string(), None);
        if !held.is_empty() {
            let (name, valued, attributes) = self.r.pick(held).clone();
            message = name;
            if !valued || self.r.one_in(4) && !attributes.is_empty() {
                attribute = Some(self.r.pick(&attributes).clone());
            }
        }
        Row {
            message,
            attribute,
            arguments: Given::Values(self.arguments()),
        }
    }

    /// Makes a message one that is perhaps not there, or its arguments image
    /// one that is malformed inside or too short.
    pub(super) fn spoil(&mut self, row: &mut Row) {
        let Given::Values(given) = &row.arguments else {
            return;
        };
        let mut bytes = encode::arguments(given);
        match self.r.below(10) {
            0..=2 => row.message = self.one_of(&IDS),
            3..=5 => row.attribute = Some(self.one_of(&ATTRIBUTES)),
            6 | 7 => {
                // Any byte but those of its length.
                let at = 4 + self.r.below(bytes.len() - 4);
                bytes[at] = bytes[at].wrapping_add(1 + self.r.below(255) as u8);
                row.arguments = Given::Bytes(bytes);
            }
            8 => {
                // Left-over bytes inside its length.
                bytes.resize(bytes.len() + 1 + self.r.below(9), 0);
                row.arguments = Given::Bytes(stated(bytes));
            }
            _ => {
                // An image of 4 to 9 bytes: 18, or a malformed one.
                bytes.resize(4 + self.r.below(6), 0);
                row.arguments = Given::Bytes(stated(bytes));
            }
        }
    }
}

/// Bytes whose first four state how many there are.
fn stated(bytes: Vec<u8>) -> Vec<u8> {
    let mut out = Vec::new();
    out.u32(bytes.len());
    out.raw(&bytes[4..]);
    out
}
