//! The arguments of calls: a term's, and NUMBER's options.

use super::words::{NUMBERS, VARIABLES};
use super::{id, Inline, Maker};
use crate::model::number::COUNTS;
use crate::random::Random;
use crate::vectors::numbers::{count, word};
use fluent_syntax::ast::*;

impl Maker {
    pub(super) fn call(
        &mut self,
        depth: usize,
        leaf: bool,
        function: bool,
    ) -> CallArguments<String> {
        let count = match (leaf, function) {
            (true, _) => 0,
            (false, true) => *self.r.pick(&[0, 1, 1, 1, 1, 2, 3]),
            (false, false) => *self.r.pick(&[0, 0, 1, 2]),
        };
        let mut positional = Vec::new();
        for at in 0..count {
            positional.push(match self.r.below(3) {
                0 if at == 0 && function => Inline::VariableReference { id: id("n") },
                1 if at == 0 && function => Inline::NumberLiteral {
                    value: self.one_of(&NUMBERS),
                },
                _ => self.inline(depth + 1),
            });
        }
        let mut named: Vec<NamedArgument<String>> = Vec::new();
        for _ in 0..*self.r.pick(&[0, 0, 1, 2, 3]) {
            let argument = match function {
                true => self.option(),
                false => self.named(),
            };
            if named.iter().all(|n| n.name != argument.name) {
                named.push(argument);
            }
        }
        CallArguments { positional, named }
    }

    /// A term's named argument.
    fn named(&mut self) -> NamedArgument<String> {
        NamedArgument {
            name: id(&self.one_of(&VARIABLES)),
            value: match self.r.one_in(2) {
                true => Inline::NumberLiteral {
                    value: self.one_of(&NUMBERS),
                },
                false => Inline::StringLiteral {
                    value: self.one_of(self.words.literals),
                },
            },
        }
    }

    /// One of NUMBER's options, sometimes with the wrong kind of value.
    fn option(&mut self) -> NamedArgument<String> {
        let words = [
            "type",
            "style",
            "currency",
            "currencyDisplay",
            "useGrouping",
        ];
        let (name, text) = match self.r.below(9) {
            0..=2 => ("type", true),
            3 => (*self.r.pick(&words), true),
            4 | 5 => ("minimumFractionDigits", false),
            6 => (*self.r.pick(&COUNTS), false),
            7 => (*self.r.pick(&words), false),
            _ => (*self.r.pick(&["minimumFractionDigits", "n", "Type"]), true),
        };
        let value = match text {
            true => Inline::StringLiteral {
                value: match self.r.below(6) {
                    0 => self.one_of(self.words.literals),
                    1 | 2 => "ordinal".into(),
                    3 => "ordina\\u006C".into(),
                    _ => word(&mut self.r),
                },
            },
            false => Inline::NumberLiteral {
                value: match self.r.one_in(10) {
                    true => "20".into(),
                    false => small_count(&mut self.r),
                },
            },
        };
        NamedArgument {
            name: id(name),
            value,
        }
    }
}

/// A digit count that seldom meets refusal 17.
fn small_count(r: &mut Random) -> String {
    match r.one_in(12) {
        true => count(r),
        false => r.pick(&["0", "1", "2", "3", "19", "1.9", "-3"]).to_string(),
    }
}
