//! Resources with about as many placeables as one formatting may begin.

use super::{id, placeable, Inline, Maker};
use fluent_syntax::ast::*;

impl Maker {
    /// `g` and `h`: from 90 to 102 placeables together, or all in `g`.
    pub(super) fn fan(&mut self) -> Resource<String> {
        let total = match self.r.below(3) {
            0 => 99 + self.r.below(4),
            _ => 90 + self.r.below(13),
        };
        let term = self.r.one_in(3);
        let entry = |name: &str, term: bool, elements: Vec<_>| {
            let value = Pattern { elements };
            match term {
                true => Entry::Term(Term {
                    id: id(name),
                    value,
                    attributes: Vec::new(),
                }),
                false => Entry::Message(Message {
                    id: id(name),
                    value: Some(value),
                    attributes: Vec::new(),
                }),
            }
        };
        let simple = match self.r.below(3) {
            0 => Inline::StringLiteral { value: "w".into() },
            1 => Inline::NumberLiteral { value: "7".into() },
            _ => Inline::VariableReference { id: id("n") },
        };
        if self.r.one_in(8) {
            let elements = (0..total).map(|_| placeable(simple.clone())).collect();
            return Resource {
                body: vec![entry("g", term, elements)],
            };
        }
        // Each of ten references and what it gives make eleven.
        let leaf = (total / 10).max(2) - 1;
        let inner = (0..leaf).map(|_| placeable(simple.clone())).collect();
        let leaf_is_term = self.r.one_in(3);
        let mut outer: Vec<_> = (0..10)
            .map(|_| {
                placeable(match leaf_is_term {
                    true => Inline::TermReference {
                        id: id("h"),
                        attribute: None,
                        arguments: None,
                    },
                    false => Inline::MessageReference {
                        id: id("h"),
                        attribute: None,
                    },
                })
            })
            .collect();
        for _ in 0..total % 10 {
            outer.push(placeable(simple.clone()));
        }
        Resource {
            body: vec![entry("g", term, outer), entry("h", leaf_is_term, inner)],
        }
    }

    /// `a`, with a reference to `g` inside calls, selects and the like.
    pub(super) fn around(&mut self) -> Resource<String> {
        self.left = self.left.max(4);
        let mut inline = match self.r.one_in(3) {
            true => Inline::TermReference {
                id: id("g"),
                attribute: None,
                arguments: self.r.one_in(2).then(|| self.call(20, true, false)),
            },
            false => Inline::MessageReference {
                id: id("g"),
                attribute: None,
            },
        };
        for _ in 0..self.r.below(5) {
            inline = self.wrap(inline);
        }
        let mut elements = Vec::new();
        for _ in 0..self.r.below(3) {
            elements.extend(self.pattern(1).elements);
        }
        elements.push(match self.r.one_in(4) {
            true => PatternElement::Placeable {
                expression: self.choice(inline),
            },
            false => placeable(inline),
        });
        if self.r.one_in(2) {
            elements.extend(self.pattern(1).elements);
        }
        let message = Message {
            id: id("a"),
            value: Some(Pattern { elements }),
            attributes: Vec::new(),
        };
        Resource {
            body: vec![Entry::Message(message)],
        }
    }

    /// Something around an inline expression that nests at most to depth 20.
    fn wrap(&mut self, inline: Inline) -> Inline {
        let kind = self.r.below(5);
        if kind == 0 {
            let expression = Box::new(Expression::Inline(inline));
            return Inline::Placeable { expression };
        }
        if kind == 1 {
            let expression = Box::new(self.choice(inline));
            return Inline::Placeable { expression };
        }
        let mut arguments = self.call(20, false, kind != 4);
        let at = self.r.below(arguments.positional.len() + 1);
        arguments.positional.insert(at, inline);
        match kind {
            4 => Inline::TermReference {
                id: id(&self.one_of(&["t", "u", "h", "zz"])),
                attribute: self.attribute(),
                arguments: Some(arguments),
            },
            _ => Inline::FunctionReference {
                id: id(&self.one_of(&["NUMBER", "NUMBER", "F"])),
                arguments,
            },
        }
    }

    /// A select with this selector.
    fn choice(&mut self, selector: Inline) -> Expression<String> {
        let Expression::Select { variants, .. } = self.select(20) else {
            unreachable!("a select")
        };
        Expression::Select { selector, variants }
    }
}
