//! Who holds an id: messages, terms and functions share one name space.

use super::reader::{Entry, Id, Item, Pattern, Store};

#[derive(Clone, Copy)]
pub enum Holder<'s> {
    Entry(&'s Entry),
    Function,
}

impl<'s> Holder<'s> {
    pub fn message(self) -> Option<&'s Entry> {
        match self {
            Holder::Entry(entry) if !entry.term => Some(entry),
            _ => None,
        }
    }

    pub fn term(self) -> Option<&'s Entry> {
        match self {
            Holder::Entry(entry) if entry.term => Some(entry),
            _ => None,
        }
    }
}

/// Walks the items: plain ones and functions take an id that nobody has,
/// overriding ones take it from anybody.
pub fn holder<'s>(store: &'s Store, id: &[u8]) -> Option<Holder<'s>> {
    let mut held = None;
    for item in &store.items {
        match item {
            Item::Resource {
                overriding,
                entries,
            } => {
                for entry in entries.iter().filter(|e| e.id == id) {
                    if *overriding || held.is_none() {
                        held = Some(Holder::Entry(entry));
                    }
                }
            }
            Item::Function(name) => {
                if name == id && held.is_none() {
                    held = Some(Holder::Function);
                }
            }
        }
    }
    held
}

/// An entry's value, or its first attribute of that name.
pub fn part<'s>(entry: &'s Entry, attribute: &Option<Id>) -> Option<&'s Pattern> {
    match attribute {
        None => entry.value.as_ref(),
        Some(name) => {
            let named = entry.attributes.iter().find(|(id, _)| id == name);
            named.map(|(_, pattern)| pattern)
        }
    }
}
