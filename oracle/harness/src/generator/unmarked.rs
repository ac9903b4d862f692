//! Seeded cases and sheets in which no text element, string literal or string
//! argument has U+2068 or U+2069; isolates arise, nest and are cut short.

use super::sheet::Held;
use super::words::SHIPS;
use super::{held_of, Maker};
use crate::case::{Bundle, Case, Item, Sheet};
use crate::encode;
use crate::model::premises::{formatting, whole_sheet};
use fluent_syntax::ast::Entry;

/// The case of a seed.
pub fn unmarked(seed: u64) -> Case {
    checked(Maker::ships(seed).ships_case())
}

/// The sheet of a seed; each of its messages is there.
pub fn unmarked_sheet(seed: u64) -> Sheet {
    checked_sheet(Maker::ships(seed ^ 0x5EE7 << 40).ships_sheet())
}

/// The case, which has no mark by the model's reading of its bytes.
pub fn checked(case: Case) -> Case {
    let (store, arguments) = (
        encode::store(&case.bundle),
        encode::arguments(&case.arguments),
    );
    let marked = formatting(&store, &arguments).expect("it is well-formed");
    assert!(marked.none(), "{marked:?} in {case:?}");
    case
}

/// The same of a sheet.
pub fn checked_sheet(sheet: Sheet) -> Sheet {
    let store = encode::store(&sheet.bundle);
    let marked = whole_sheet(&store, &sheet.image()).expect("it is well-formed");
    assert!(marked.none(), "{marked:?} in {sheet:?}");
    sheet
}

impl Maker {
    /// A maker whose words have no mark.
    pub(super) fn ships(seed: u64) -> Self {
        Self {
            words: SHIPS,
            ..Self::new(seed ^ 0x12 << 48)
        }
    }

    /// A case of the usual kind with other words, or of a chain.
    pub(super) fn ships_case(&mut self) -> Case {
        let mut case = match self.r.below(5) {
            0 | 1 => self.case(),
            _ => self.chain_case(),
        };
        case.bundle.isolating = !self.r.one_in(12);
        case
    }

    fn chain_case(&mut self) -> Case {
        let bundle = self.chain();
        let (mut message, mut attribute) = ("a".to_string(), None);
        if self.r.one_in(6) {
            let row = self.row(&all_messages(&bundle));
            (message, attribute) = (row.message, row.attribute);
        }
        Case {
            bundle,
            message,
            attribute,
            arguments: self.arguments(),
        }
    }

    /// A sheet of 1 to 40 messages that are there, some over and over.
    pub(super) fn ships_sheet(&mut self) -> Sheet {
        let mut bundle = self.ships_case().bundle;
        let mut held = all_messages(&bundle);
        while held.is_empty() {
            bundle = self.chain();
            held = all_messages(&bundle);
        }
        let count = match self.r.below(8) {
            0 => 1,
            1..=4 => 2 + self.r.below(3),
            5 | 6 => 3 + self.r.below(10),
            _ => 10 + self.r.below(31),
        };
        let rows = (0..count).map(|_| self.row(&held)).collect();
        Sheet { bundle, rows }
    }
}

/// All messages that hold their ids.
fn all_messages(bundle: &Bundle) -> Vec<Held> {
    let mut ids: Vec<&str> = Vec::new();
    for item in &bundle.items {
        let (Item::Plain(tree) | Item::Overriding(tree)) = item else {
            continue;
        };
        for entry in &tree.body {
            if let Entry::Message(message) = entry {
                ids.push(&message.id.name);
            }
        }
    }
    ids.sort_unstable();
    ids.dedup();
    held_of(bundle, &ids)
}
