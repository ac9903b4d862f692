//! Inline expressions.

use super::words::{ATTRIBUTES, IDS, NUMBERS, VARIABLES};
use super::{id, Inline, Maker};
use fluent_syntax::ast::*;

impl Maker {
    /// An inline expression of this depth.
    pub(super) fn inline(&mut self, depth: usize) -> Inline {
        let leaf = depth >= 32 || self.left == 0;
        self.left = self.left.saturating_sub(1);
        if depth == 1 && self.r.one_in(150) {
            return self.deep();
        }
        if self.many && depth > 1 && self.r.one_in(3) {
            return match self.r.one_in(3) {
                true => self.term(depth, leaf),
                false => self.message(),
            };
        }
        match self.r.below(if leaf { 8 } else { 15 }) {
            0 => Inline::StringLiteral {
                value: self.one_of(self.words.literals),
            },
            1 => Inline::NumberLiteral {
                value: self.one_of(&NUMBERS),
            },
            2 | 3 => Inline::VariableReference {
                id: id(&self.one_of(&VARIABLES)),
            },
            4 | 5 => self.message(),
            6 | 7 => self.term(depth, leaf),
            8..=10 => self.function(depth),
            11 | 12 => self.term(depth, leaf),
            _ => Inline::Placeable {
                expression: Box::new(self.expression(depth + 1)),
            },
        }
    }

    /// Inline placeables down to the last depth.
    fn deep(&mut self) -> Inline {
        let mut inline = match self.r.below(3) {
            0 => Inline::VariableReference { id: id("n") },
            1 => self.message(),
            _ => self.function(32),
        };
        for _ in 1..32 {
            inline = Inline::Placeable {
                expression: Box::new(Expression::Inline(inline)),
            };
        }
        inline
    }

    fn reference(&mut self) -> String {
        if self.many && self.r.one_in(2) {
            return self.one_of(&["g", "g", "h"]);
        }
        self.one_of(&IDS)
    }

    pub(super) fn attribute(&mut self) -> Option<Identifier<String>> {
        match self.r.one_in(5) {
            true => Some(id(&self.one_of(&ATTRIBUTES))),
            false => None,
        }
    }

    fn message(&mut self) -> Inline {
        Inline::MessageReference {
            id: id(&match self.r.one_in(12) {
                true => "NUMBER".to_string(),
                false => self.reference(),
            }),
            attribute: self.attribute(),
        }
    }

    fn term(&mut self, depth: usize, leaf: bool) -> Inline {
        let name = match self.r.below(3) {
            0 => self.reference(),
            1 => "t".to_string(),
            _ => "u".to_string(),
        };
        let attribute = self.attribute();
        let arguments = match self.r.one_in(2) {
            true => Some(self.call(depth, leaf, false)),
            false => None,
        };
        Inline::TermReference {
            id: id(&name),
            attribute,
            arguments,
        }
    }

    fn function(&mut self, depth: usize) -> Inline {
        let name = match self.r.below(6) {
            0 => self.one_of(&["F", "G", "a"]),
            _ => "NUMBER".to_string(),
        };
        Inline::FunctionReference {
            id: id(&name),
            arguments: self.call(depth, depth >= 32, true),
        }
    }
}
