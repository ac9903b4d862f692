//! Entries that refer one to the next, mostly inside isolates, the last with
//! many placeables, or few, or a reference back: so isolates nest, and texts are
//! cut short inside them.

use super::words::VARIABLES;
use super::{id, placeable, text, Inline, Maker};
use crate::case::{Bundle, Item};
use fluent_syntax::ast::*;

type Element = PatternElement<String>;

/// An entry of a chain.
struct Step {
    name: String,
    term: bool,
    /// Its pattern is that of an attribute.
    attribute: bool,
}

impl Step {
    fn entry(&self, pattern: Pattern<String>) -> Entry<String> {
        let (value, attributes) = match self.attribute {
            false => (pattern, Vec::new()),
            true => {
                let elements = vec![text("x")];
                let attribute = Attribute {
                    id: id("x"),
                    value: pattern,
                };
                (Pattern { elements }, vec![attribute])
            }
        };
        let id = id(&self.name);
        match self.term {
            true => Entry::Term(Term {
                id,
                value,
                attributes,
            }),
            false => Entry::Message(Message {
                id,
                value: Some(value),
                attributes,
            }),
        }
    }
}

impl Maker {
    /// A bundle with a chain that begins with `a`, and perhaps other entries.
    pub(super) fn chain(&mut self) -> Bundle {
        if self.r.one_in(60) {
            return self.deep_chain();
        }
        self.left = 8;
        self.many = self.r.one_in(3);
        let length = match self.r.below(16) {
            0 => 8 + self.r.below(30),
            _ => 1 + self.r.below(6),
        };
        let steps: Vec<Step> = (0..length).map(|at| self.step(at)).collect();
        let mut body = Vec::new();
        for (at, step) in steps.iter().enumerate() {
            let pattern = match steps.get(at + 1) {
                Some(next) => self.linked(next),
                None => self.last(),
            };
            body.push(step.entry(pattern));
        }
        let mut items = vec![Item::Plain(Resource { body })];
        if !self.r.one_in(6) {
            items.push(Item::Function("NUMBER".into()));
        }
        if self.many {
            items.push(Item::Plain(self.fan()));
        }
        if self.r.one_in(2) {
            items.push(Item::Plain(self.resource()));
        }
        if self.r.one_in(8) {
            items.push(Item::Overriding(self.resource()));
        }
        Bundle {
            locale: self.r.below(4) as u8,
            isolating: true,
            items,
        }
    }

    /// A bundle with a chain in which each message has one isolate, with the next
    /// in it: as many as one formatting may begin, some less or some more.
    fn deep_chain(&mut self) -> Bundle {
        let height = 90 + self.r.below(14);
        let name = |at: usize| match at {
            0 => "a".to_string(),
            _ => format!("m{at}"),
        };
        let message = |maker: &mut Self, at: usize| {
            let next = match at + 1 < height {
                true => Inline::MessageReference {
                    id: id(&name(at + 1)),
                    attribute: None,
                },
                false => maker.leaf(),
            };
            let mut elements = vec![placeable(in_placeables(next, 1))];
            let beside = text(&maker.one_of(maker.words.texts));
            elements.insert(maker.r.below(2), beside);
            Entry::Message(Message {
                id: id(&name(at)),
                value: Some(Pattern { elements }),
                attributes: Vec::new(),
            })
        };
        let body = (0..height).map(|at| message(self, at)).collect();
        Bundle {
            locale: 0,
            isolating: true,
            items: vec![Item::Plain(Resource { body })],
        }
    }

    fn step(&mut self, at: usize) -> Step {
        Step {
            name: match at {
                0 => "a".into(),
                1 => "b".into(),
                2 => "c".into(),
                _ => format!("m{at}"),
            },
            term: at > 0 && self.r.one_in(4),
            attribute: at > 0 && self.r.one_in(8),
        }
    }

    /// A pattern with a reference to the next entry, now and then two.
    fn linked(&mut self, next: &Step) -> Pattern<String> {
        let mut elements = self.beside();
        elements.push(self.link(next));
        elements.extend(self.beside());
        if self.r.one_in(8) {
            elements.push(self.link(next));
        }
        Pattern { elements }
    }

    /// What stands beside a reference.
    fn beside(&mut self) -> Vec<Element> {
        let count = self.r.below(3);
        let one = |maker: &mut Self| match maker.r.below(4) {
            0 => placeable(maker.leaf()),
            _ => text(&maker.one_of(maker.words.texts)),
        };
        (0..count).map(|_| one(self)).collect()
    }

    /// An inline expression that refers to no entry.
    fn leaf(&mut self) -> Inline {
        match self.r.below(4) {
            0 => Inline::StringLiteral {
                value: self.one_of(self.words.literals),
            },
            1 => Inline::NumberLiteral { value: "7".into() },
            _ => Inline::VariableReference {
                id: id(&self.one_of(&VARIABLES)),
            },
        }
    }

    /// A placeable that leads to the next entry: itself, in inline placeables, in
    /// variants, as a selector, as an argument.
    fn link(&mut self, next: &Step) -> Element {
        let inline = self.refer(next);
        let expression = match self.r.below(12) {
            0 => Expression::Inline(inline),
            1..=3 => {
                let around = 1 + self.r.below(3);
                Expression::Inline(in_placeables(inline, around))
            }
            4..=9 => {
                let around = match self.r.one_in(40) {
                    true => 10 + self.r.below(17),
                    false => 1 + self.r.below(3),
                };
                self.in_variants(Expression::Inline(inline), around)
            }
            10 => Expression::Select {
                selector: inline,
                variants: vec![self.variant(None)],
            },
            _ => Expression::Inline(Inline::FunctionReference {
                id: id(&self.one_of(&["NUMBER", "NUMBER", "F"])),
                arguments: CallArguments {
                    positional: vec![Inline::NumberLiteral { value: "5".into() }, inline],
                    named: Vec::new(),
                },
            }),
        };
        PatternElement::Placeable { expression }
    }

    fn refer(&mut self, next: &Step) -> Inline {
        let attribute = next.attribute.then(|| id("x"));
        match next.term {
            true => Inline::TermReference {
                id: id(&next.name),
                attribute,
                arguments: self.r.one_in(2).then(|| self.call(28, true, false)),
            },
            false => Inline::MessageReference {
                id: id(&next.name),
                attribute,
            },
        }
    }

    /// Selects within one another, an expression in the innermost.
    fn in_variants(&mut self, inner: Expression<String>, around: usize) -> Expression<String> {
        let mut expression = inner;
        for _ in 0..around {
            let mut variants = vec![self.variant(Some(expression))];
            if self.r.one_in(4) {
                let mut other = self.variant(None);
                other.default = false;
                variants.insert(0, other);
            }
            let selector = self.leaf();
            expression = Expression::Select { selector, variants };
        }
        expression
    }

    /// A default variant, with something beside what it holds.
    fn variant(&mut self, inner: Option<Expression<String>>) -> Variant<String> {
        let mut elements = self.beside();
        elements.extend(inner.map(|expression| PatternElement::Placeable { expression }));
        elements.extend(self.beside());
        if elements.is_empty() {
            elements.push(text("x"));
        }
        Variant {
            key: VariantKey::Identifier {
                name: self.one_of(&["other", "zero", "w"]),
            },
            default: true,
            value: Pattern { elements },
        }
    }

    /// The last pattern of a chain.
    fn last(&mut self) -> Pattern<String> {
        let mut elements = self.beside();
        match self.r.below(6) {
            0 | 1 => elements.extend(self.pattern(1).elements),
            2 => {
                // As many placeables as one formatting may begin, or some more.
                let leaf = placeable(self.leaf());
                let count = 90 + self.r.below(15);
                elements.extend(std::iter::repeat_n(leaf, count));
            }
            3 => {
                // Each has another one in its variant.
                let leaf = Expression::Inline(self.leaf());
                let expression = self.in_variants(leaf, 1);
                let each = PatternElement::Placeable { expression };
                let count = 46 + self.r.below(10);
                elements.extend(std::iter::repeat_n(each, count));
            }
            _ => {
                let name = match self.many {
                    true => "g".to_string(),
                    false => self.one_of(&["a", "b", "zz", "u"]),
                };
                let next = Step {
                    name,
                    term: self.r.one_in(4),
                    attribute: false,
                };
                elements.push(self.link(&next));
            }
        }
        Pattern { elements }
    }
}

/// An inline expression in inline placeables.
fn in_placeables(inline: Inline, around: usize) -> Inline {
    (0..around).fold(inline, |inline, _| Inline::Placeable {
        expression: Box::new(Expression::Inline(inline)),
    })
}
