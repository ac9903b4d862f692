//! What Card 12 asks of the input: "no text element, no string literal once its
//! escapes are read, and no string argument contains U+2068 or U+2069." All items
//! of a store are looked at, also those that hold no id any more, and in them
//! every value and attribute, variant, selector and argument.

use super::arguments::accepted;
use super::marks::is_mark;
use super::reader::*;

/// Where a mark can stand in an input.
#[derive(Clone, Copy, Debug, PartialEq, Eq)]
pub enum Kind {
    /// A text element of a pattern.
    Text,
    /// A string literal, once its escapes are read.
    Literal,
    /// A string argument.
    Argument,
}

pub const KINDS: [Kind; 3] = [Kind::Text, Kind::Literal, Kind::Argument];

/// How many text elements, string literals and string arguments have a mark.
#[derive(Clone, Copy, Debug, Default, PartialEq, Eq)]
pub struct Marked {
    pub texts: usize,
    pub literals: usize,
    pub arguments: usize,
}

impl Marked {
    /// Nothing has a mark: the card's condition.
    pub fn none(&self) -> bool {
        *self == Self::default()
    }

    /// Something of this kind has a mark, and nothing of the others.
    pub fn only(&self, kind: Kind) -> bool {
        KINDS.iter().all(|k| (self.of(*k) > 0) == (*k == kind))
    }

    pub fn of(&self, kind: Kind) -> usize {
        match kind {
            Kind::Text => self.texts,
            Kind::Literal => self.literals,
            Kind::Argument => self.arguments,
        }
    }

    fn store(&mut self, store: &Store) {
        for item in &store.items {
            match item {
                Item::Resource { entries, .. } => entries.iter().for_each(|e| self.entry(e)),
                Item::Function(_) => {}
            }
        }
    }

    fn entry(&mut self, entry: &Entry) {
        let attributes = entry.attributes.iter().map(|(_, pattern)| pattern);
        for pattern in entry.value.iter().chain(attributes) {
            self.pattern(pattern);
        }
    }

    fn pattern(&mut self, pattern: &Pattern) {
        for element in &pattern.elements {
            match element {
                Element::Text(text) => self.texts += usize::from(has_mark(text)),
                Element::Placeable(expression) => self.expression(expression),
            }
        }
    }

    fn expression(&mut self, expression: &Expression) {
        match expression {
            Expression::Inline(inline) => self.inline(inline),
            Expression::Select(selector, variants) => {
                self.inline(selector);
                for variant in variants {
                    self.pattern(&variant.pattern);
                }
            }
        }
    }

    fn inline(&mut self, inline: &Inline) {
        match inline {
            Inline::Text(literal) => {
                let read = unescape(literal).expect("it was read as well-formed");
                self.literals += usize::from(has_mark(&read));
            }
            Inline::Function(_, arguments) | Inline::Term(_, _, Some(arguments)) => {
                self.call(arguments)
            }
            Inline::Placeable(expression) => self.expression(expression),
            Inline::Number(_)
            | Inline::Message(..)
            | Inline::Term(_, _, None)
            | Inline::Variable(_) => {}
        }
    }

    fn call(&mut self, arguments: &Arguments) {
        let named = arguments.named.iter().map(|(_, inline)| inline);
        for inline in arguments.positional.iter().chain(named) {
            self.inline(inline);
        }
    }

    fn given(&mut self, given: &[(Id, Given)]) {
        for (_, value) in given {
            if let Given::Text(text) = value {
                self.arguments += usize::from(has_mark(text));
            }
        }
    }
}

/// Whether one of the scalars of a text is a mark.
fn has_mark(text: &[u8]) -> bool {
    let text = std::str::from_utf8(text).expect("it was read as well-formed");
    text.chars().any(is_mark)
}

/// Of a store and an arguments image; `None` where one of them is refused, and so
/// nothing is formatted.
pub fn formatting(slice: &[u8], image: &[u8]) -> Option<Marked> {
    let mut marked = Marked::default();
    marked.store(&store(slice)?);
    marked.given(&accepted(image).ok()?);
    Some(marked)
}

/// Of a store and a sheet image with the arguments images of all its messages.
pub fn whole_sheet(slice: &[u8], image: &[u8]) -> Option<Marked> {
    let mut marked = Marked::default();
    marked.store(&store(slice)?);
    for row in sheet(image)? {
        marked.given(&accepted(&row.arguments).ok()?);
    }
    Some(marked)
}
