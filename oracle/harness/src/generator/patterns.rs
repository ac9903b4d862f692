//! Entries, patterns and selects.

use super::words::{ATTRIBUTES, IDS, KEYS, NUMBERS, VARIABLES};
use super::{id, text, Inline, Maker};
use fluent_syntax::ast::*;

impl Maker {
    pub(super) fn entry(&mut self) -> Entry<String> {
        let name = self.one_of(&IDS);
        let term = match name.as_str() {
            "t" | "u" => !self.r.one_in(8),
            _ => self.r.one_in(10),
        };
        let mut attributes: Vec<Attribute<String>> = Vec::new();
        if self.r.one_in(4) {
            for _ in 0..1 + self.r.below(3) {
                attributes.push(Attribute {
                    id: id(&self.one_of(&ATTRIBUTES)),
                    value: self.pattern(1),
                });
            }
        }
        let bare = !term && !attributes.is_empty() && self.r.one_in(2);
        let value = match bare {
            true => None,
            false => Some(self.pattern(1)),
        };
        match term {
            true => Entry::Term(Term {
                id: id(&name),
                value: value.expect("a term has a value"),
                attributes,
            }),
            false => Entry::Message(Message {
                id: id(&name),
                value,
                attributes,
            }),
        }
    }

    /// A pattern whose expressions have this depth.
    pub fn pattern(&mut self, depth: usize) -> Pattern<String> {
        let mut elements = Vec::new();
        for _ in 0..self.words.elements + self.r.below(3) {
            if depth > 32 || self.left == 0 || self.r.one_in(4) {
                elements.push(text(&self.one_of(self.words.texts)));
            } else {
                let expression = self.expression(depth);
                elements.push(PatternElement::Placeable { expression });
            }
        }
        Pattern { elements }
    }

    pub(super) fn expression(&mut self, depth: usize) -> Expression<String> {
        if depth < 32 && self.left > 0 && self.r.one_in(4) {
            self.left -= 1;
            return self.select(depth);
        }
        Expression::Inline(self.inline(depth))
    }

    pub(super) fn select(&mut self, depth: usize) -> Expression<String> {
        let selector = match self.r.below(3) {
            0 => Inline::VariableReference {
                id: id(&self.one_of(&VARIABLES)),
            },
            _ => self.inline(depth + 1),
        };
        let count = 1 + self.r.below(3);
        let defaults = self.r.below(4);
        let variants = (0..count)
            .map(|at| Variant {
                key: self.key(),
                default: match defaults {
                    0 => false,
                    1 => self.r.one_in(2),
                    _ => at + 1 == count,
                },
                value: self.pattern(depth + 1),
            })
            .collect();
        Expression::Select { selector, variants }
    }

    fn key(&mut self) -> VariantKey<String> {
        match self.r.below(5) {
            0 | 1 => VariantKey::NumberLiteral {
                value: self.one_of(&NUMBERS),
            },
            2 => VariantKey::Identifier {
                name: self.one_of(&KEYS),
            },
            _ => VariantKey::Identifier {
                name: self.one_of(&KEYS[..3]),
            },
        }
    }
}
