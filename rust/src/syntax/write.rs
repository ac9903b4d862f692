//! Patterns and expressions as document 01's bytes. What is nested far too deep
//! is not written but remembered, so that no tree is too deep for the writing.

use super::{Arguments, Element, Expression, Inline, Key, Literal, Pattern};
use crate::bytes::Writer;

/// Twice the nesting limit. What is below it goes to the proved check.
const FAR: usize = 64;

impl Pattern {
    pub(crate) fn write(&self, out: &mut Writer) {
        self.write_in(out, FAR);
    }

    /// The pattern, with `left` levels left for its expressions.
    fn write_in(&self, out: &mut Writer, left: usize) {
        let start = out.open();
        out.u16(self.elements.len());
        for element in &self.elements {
            match element {
                Element::Text(text) => {
                    out.byte(1);
                    out.str(text);
                }
                Element::Placeable(expression) => {
                    out.byte(2);
                    expression.write(out, left);
                }
            }
        }
        out.close(start, 0);
    }
}

impl Expression {
    fn write(&self, out: &mut Writer, left: usize) {
        match self {
            Self::Inline(inline) => inline.write(out, left),
            Self::Select(select) => {
                let Some(left) = left.checked_sub(1) else {
                    return out.refuse();
                };
                out.byte(8);
                select.selector.write(out, left);
                out.u16(select.variants.len());
                for variant in &select.variants {
                    let (kind, key) = match &variant.key {
                        Key::Id(key) => (1, key),
                        Key::Number(key) => (2, key),
                    };
                    out.byte(kind);
                    out.str(key);
                    out.flag(variant.default);
                    variant.value.write_in(out, left);
                }
            }
        }
    }
}

impl Inline {
    fn write(&self, out: &mut Writer, left: usize) {
        let Some(left) = left.checked_sub(1) else {
            return out.refuse();
        };
        match self {
            Self::String(text) => {
                out.byte(1);
                out.str(text);
            }
            Self::Number(text) => {
                out.byte(2);
                out.str(text);
            }
            Self::Function { id, arguments } => {
                out.byte(3);
                out.str(id);
                arguments.write(out, left);
            }
            Self::Message { id, attribute } => {
                out.byte(4);
                out.str(id);
                write_optional(attribute.as_deref(), out);
            }
            Self::Term {
                id,
                attribute,
                arguments,
            } => {
                out.byte(5);
                out.str(id);
                write_optional(attribute.as_deref(), out);
                out.flag(arguments.is_some());
                if let Some(arguments) = arguments {
                    arguments.write(out, left);
                }
            }
            Self::Variable(name) => {
                out.byte(6);
                out.str(name);
            }
            Self::Placeable(expression) => {
                out.byte(7);
                expression.write(out, left);
            }
        }
    }
}

impl Arguments {
    fn write(&self, out: &mut Writer, left: usize) {
        out.u16(self.positional.len());
        for argument in &self.positional {
            argument.write(out, left);
        }
        out.u16(self.named.len());
        for (name, value) in &self.named {
            out.str(name);
            let (tag, text) = match value {
                Literal::String(text) => (1, text),
                Literal::Number(text) => (2, text),
            };
            out.byte(tag);
            out.str(text);
        }
    }
}

fn write_optional(id: Option<&str>, out: &mut Writer) {
    out.flag(id.is_some());
    if let Some(id) = id {
        out.str(id);
    }
}
