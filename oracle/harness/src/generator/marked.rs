//! The same cases and sheets with marks in some text elements, or string
//! literals, or string arguments.

use super::words::VARIABLES;
use super::Maker;
use crate::case::{accepted, Bundle, Case, Given, Item, Row, Sheet, Value};
use crate::encode;
use crate::model::premises::{formatting, whole_sheet, Kind};
use crate::random::Random;
use fluent_syntax::ast::*;

/// The case of a seed with marks of this kind, and of no other.
pub fn marked(seed: u64, kind: Kind) -> Case {
    let mut maker = Maker::ships(seed ^ 0x4D << 40);
    loop {
        let mut case = maker.ships_case();
        let done = match kind {
            Kind::Argument => mark_arguments(&mut maker.r, &mut case.arguments),
            _ => mark_bundle(&mut maker.r, &mut case.bundle, kind),
        };
        if done {
            let arguments = encode::arguments(&case.arguments);
            let marked = formatting(&encode::store(&case.bundle), &arguments);
            assert!(marked.is_some_and(|marked| marked.only(kind)), "{case:?}");
            return case;
        }
    }
}

/// The same of a sheet.
pub fn marked_sheet(seed: u64, kind: Kind) -> Sheet {
    let mut maker = Maker::ships(seed ^ 0x5E4D << 40);
    loop {
        let mut sheet = maker.ships_sheet();
        let done = match kind {
            Kind::Argument => mark_rows(&mut maker.r, &mut sheet.rows),
            _ => mark_bundle(&mut maker.r, &mut sheet.bundle, kind),
        };
        if done {
            let marked = whole_sheet(&encode::store(&sheet.bundle), &sheet.image());
            assert!(marked.is_some_and(|marked| marked.only(kind)), "{sheet:?}");
            return sheet;
        }
    }
}

/// Puts marks into some string arguments, new ones where there are none.
fn mark_arguments(r: &mut Random, given: &mut Vec<(String, Value)>) -> bool {
    for _ in 0..*r.pick(&[1, 1, 2, 4]) {
        let name = r.pick(&VARIABLES).to_string();
        let held = given.iter_mut().rfind(|(held, _)| *held == name);
        if let Some((_, Value::Text(text))) = held {
            mark_text(r, text);
        } else {
            let mut text = "x".to_string();
            mark_text(r, &mut text);
            // In the place of another value that it may have.
            given.push((name, Value::Text(text)));
        }
    }
    *given = accepted(given);
    true
}

/// Puts marks into the string arguments of a message, and of some others.
fn mark_rows(r: &mut Random, rows: &mut [Row]) -> bool {
    let first = r.below(rows.len());
    for (at, row) in rows.iter_mut().enumerate() {
        if let Given::Values(values) = &mut row.arguments {
            if at == first || r.one_in(3) {
                mark_arguments(r, values);
            }
        }
    }
    true
}

/// Puts marks into some text elements or string literals, if there are any.
fn mark_bundle(r: &mut Random, bundle: &mut Bundle, kind: Kind) -> bool {
    let mut places = Places {
        kind,
        found: Vec::new(),
    };
    for item in &mut bundle.items {
        if let Item::Plain(tree) | Item::Overriding(tree) = item {
            tree.body.iter_mut().for_each(|entry| places.entry(entry));
        }
    }
    let mut found = places.found;
    if found.is_empty() {
        return false;
    }
    for _ in 0..*r.pick(&[1, 1, 2, 5]) {
        let at = r.below(found.len());
        match kind {
            Kind::Literal => mark_literal(r, found[at]),
            _ => mark_text(r, found[at]),
        }
    }
    true
}

/// Puts a mark, or some, before a scalar of the text or behind it.
fn mark_text(r: &mut Random, text: &mut String) {
    let marks = [
        "\u{2068}",
        "\u{2069}",
        "\u{2069}\u{2068}",
        "\u{2068}\u{2069}",
    ];
    let mark = match r.below(10) {
        0..=3 => marks[0],
        4..=7 => marks[1],
        8 => marks[2],
        _ => marks[3],
    };
    let ends: Vec<usize> = text.char_indices().map(|(at, _)| at).collect();
    let at = match r.below(ends.len() + 1) {
        0 => text.len(),
        n => ends[n - 1],
    };
    text.insert_str(at, mark);
}

/// Puts a mark, or some, before or behind a string literal, escaped or not.
fn mark_literal(r: &mut Random, literal: &mut String) {
    let mark = r.pick(&[
        "\u{2068}",
        "\u{2069}",
        "\\u2068",
        "\\u2069",
        "\\U002068",
        "\\U002069",
        "\\u2069\\u2068",
        "\\\\\\u2069",
    ]);
    let at = match r.one_in(2) {
        true => 0,
        false => literal.len(),
    };
    literal.insert_str(at, mark);
}

/// The text elements, or the string literals, of some entries.
struct Places<'t> {
    kind: Kind,
    found: Vec<&'t mut String>,
}

impl<'t> Places<'t> {
    fn entry(&mut self, entry: &'t mut Entry<String>) {
        let (value, attributes) = match entry {
            Entry::Message(m) => (m.value.as_mut(), &mut m.attributes),
            Entry::Term(t) => (Some(&mut t.value), &mut t.attributes),
            Entry::Junk { .. } => return,
        };
        let attributes = attributes.iter_mut().map(|a| &mut a.value);
        for pattern in value.into_iter().chain(attributes) {
            self.pattern(pattern);
        }
    }

    fn pattern(&mut self, pattern: &'t mut Pattern<String>) {
        for element in &mut pattern.elements {
            match element {
                PatternElement::TextElement { value } if self.kind == Kind::Text => {
                    self.found.push(value)
                }
                PatternElement::TextElement { .. } => {}
                PatternElement::Placeable { expression } => self.expression(expression),
            }
        }
    }

    fn expression(&mut self, expression: &'t mut Expression<String>) {
        match expression {
            Expression::Inline(inline) => self.inline(inline),
            Expression::Select { selector, variants } => {
                self.inline(selector);
                for variant in variants {
                    self.pattern(&mut variant.value);
                }
            }
        }
    }

    fn inline(&mut self, inline: &'t mut InlineExpression<String>) {
        match inline {
            InlineExpression::StringLiteral { value } if self.kind == Kind::Literal => {
                self.found.push(value)
            }
            InlineExpression::Placeable { expression } => self.expression(expression),
            InlineExpression::FunctionReference { arguments, .. }
            | InlineExpression::TermReference {
                arguments: Some(arguments),
                ..
            } => {
                let named = arguments.named.iter_mut().map(|n| &mut n.value);
                for inline in arguments.positional.iter_mut().chain(named) {
                    self.inline(inline);
                }
            }
            _ => {}
        }
    }
}
