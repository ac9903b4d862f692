//! From the tree to document 01's bytes: store, resource image, arguments
//! image, error list; and document 02's sheet image.

use crate::bytes::Write;
use crate::case::{accepted, Bundle, Item, Value};
use crate::model::reader::Row;
use fluent_bundle::resolver::errors::{ReferenceKind, ResolverError};
use fluent_bundle::{EntryKind, FluentError};
use fluent_syntax::ast::*;

pub fn store(bundle: &Bundle) -> Vec<u8> {
    let mut rest = vec![1, bundle.locale];
    rest.flag(bundle.isolating);
    rest.u16(bundle.items.len());
    for item in &bundle.items {
        match item {
            Item::Plain(r) => {
                rest.u8(1);
                rest.raw(&resource(r));
            }
            Item::Overriding(r) => {
                rest.u8(2);
                rest.raw(&resource(r));
            }
            Item::Function(id) => {
                rest.u8(3);
                rest.u32(8 + id.len());
                rest.raw(&[1, 1]);
                rest.str(id);
            }
        }
    }
    with_length(4, rest)
}

/// A u32 length before the rest; `counted` of its own bytes count.
fn with_length(counted: usize, rest: Vec<u8>) -> Vec<u8> {
    let mut out = Vec::new();
    out.u32(counted + rest.len());
    out.raw(&rest);
    out
}

pub fn resource<S: AsRef<str>>(resource: &Resource<S>) -> Vec<u8> {
    let mut rest = vec![1];
    rest.u16(resource.body.len());
    for entry in &resource.body {
        match entry {
            Entry::Message(m) => {
                rest.u8(1);
                entry_fields(&mut rest, &m.id, m.value.as_ref(), &m.attributes);
            }
            Entry::Term(t) => {
                rest.u8(2);
                entry_fields(&mut rest, &t.id, Some(&t.value), &t.attributes);
            }
            Entry::Junk { .. } => panic!("junk has no record"),
        }
    }
    with_length(4, rest)
}

fn entry_fields<S: AsRef<str>>(
    out: &mut Vec<u8>,
    id: &Identifier<S>,
    value: Option<&Pattern<S>>,
    attributes: &[Attribute<S>],
) {
    text(out, &id.name);
    out.flag(value.is_some());
    if let Some(value) = value {
        pattern(out, value);
    }
    out.u16(attributes.len());
    for attribute in attributes {
        text(out, &attribute.id.name);
        pattern(out, &attribute.value);
    }
}

fn text<S: AsRef<str>>(out: &mut Vec<u8>, text: &S) {
    out.str(text.as_ref());
}

fn pattern<S: AsRef<str>>(out: &mut Vec<u8>, pattern: &Pattern<S>) {
    let mut rest = Vec::new();
    rest.u16(pattern.elements.len());
    for element in &pattern.elements {
        match element {
            PatternElement::TextElement { value } => {
                rest.u8(1);
                text(&mut rest, value);
            }
            PatternElement::Placeable { expression: e } => {
                rest.u8(2);
                expression(&mut rest, e);
            }
        }
    }
    out.raw(&with_length(0, rest));
}

fn expression<S: AsRef<str>>(out: &mut Vec<u8>, expression: &Expression<S>) {
    match expression {
        Expression::Inline(e) => inline(out, e),
        Expression::Select { selector, variants } => {
            out.u8(8);
            inline(out, selector);
            out.u16(variants.len());
            for variant in variants {
                match &variant.key {
                    VariantKey::Identifier { name } => {
                        out.u8(1);
                        text(out, name);
                    }
                    VariantKey::NumberLiteral { value } => {
                        out.u8(2);
                        text(out, value);
                    }
                }
                out.flag(variant.default);
                pattern(out, &variant.value);
            }
        }
    }
}

fn inline<S: AsRef<str>>(out: &mut Vec<u8>, inline_: &InlineExpression<S>) {
    match inline_ {
        InlineExpression::StringLiteral { value } => {
            out.u8(1);
            text(out, value);
        }
        InlineExpression::NumberLiteral { value } => {
            out.u8(2);
            text(out, value);
        }
        InlineExpression::FunctionReference { id, arguments } => {
            out.u8(3);
            text(out, &id.name);
            call(out, arguments);
        }
        InlineExpression::MessageReference { id, attribute } => {
            out.u8(4);
            text(out, &id.name);
            optional_id(out, attribute.as_ref());
        }
        InlineExpression::TermReference {
            id,
            attribute,
            arguments,
        } => {
            out.u8(5);
            text(out, &id.name);
            optional_id(out, attribute.as_ref());
            out.flag(arguments.is_some());
            if let Some(arguments) = arguments {
                call(out, arguments);
            }
        }
        InlineExpression::VariableReference { id } => {
            out.u8(6);
            text(out, &id.name);
        }
        InlineExpression::Placeable { expression: e } => {
            out.u8(7);
            expression(out, e);
        }
    }
}

fn optional_id<S: AsRef<str>>(out: &mut Vec<u8>, id: Option<&Identifier<S>>) {
    out.flag(id.is_some());
    if let Some(id) = id {
        text(out, &id.name);
    }
}

fn call<S: AsRef<str>>(out: &mut Vec<u8>, arguments: &CallArguments<S>) {
    out.u16(arguments.positional.len());
    for argument in &arguments.positional {
        inline(out, argument);
    }
    out.u16(arguments.named.len());
    for argument in &arguments.named {
        text(out, &argument.name.name);
        inline(out, &argument.value);
    }
}

/// The accepted arguments image of these: sorted, the last of equal names, least
/// scales.
pub fn arguments(arguments: &[(String, Value)]) -> Vec<u8> {
    listed(&accepted(arguments))
}

/// An arguments image of these as they are listed, which may be refused with 19.
pub fn listed(arguments: &[(String, Value)]) -> Vec<u8> {
    let mut rest = vec![1];
    rest.u16(arguments.len());
    for (name, value) in arguments {
        rest.str(name);
        match value {
            Value::Text(text) => {
                rest.u8(1);
                rest.str(text);
            }
            Value::Number(d) => {
                rest.u8(2);
                rest.flag(d.negative);
                rest.u64(d.digits);
                rest.u8(d.scale);
            }
            Value::None => rest.u8(3),
        }
    }
    with_length(4, rest)
}

/// A sheet image of these rows.
pub fn sheet(rows: &[Row]) -> Vec<u8> {
    let mut rest = vec![1];
    rest.u16(rows.len());
    for row in rows {
        rest.str(&row.message);
        rest.flag(row.attribute.is_some());
        if let Some(attribute) = &row.attribute {
            rest.str(attribute);
        }
        rest.raw(&row.arguments);
    }
    with_length(4, rest)
}

/// The list that the Rust's errors make.
pub fn error_list(errors: &[FluentError]) -> Vec<u8> {
    let mut rest = vec![1];
    for error in errors {
        rest.str(error_record(error));
    }
    with_length(4, rest)
}

fn error_record(error: &FluentError) -> Vec<u8> {
    let mut out = Vec::new();
    match error {
        FluentError::Overriding { kind, id } => {
            out.u8(1);
            out.u8(match kind {
                EntryKind::Message => 1,
                EntryKind::Term => 2,
                EntryKind::Function => panic!("a function's refusal has no record"),
            });
            out.str(id);
        }
        FluentError::ResolverError(ResolverError::Reference(kind)) => {
            let (byte, id, attribute) = match kind {
                ReferenceKind::Message { id, attribute } => (1, id, attribute.as_ref()),
                ReferenceKind::Term { id, attribute } => (2, id, attribute.as_ref()),
                ReferenceKind::Function { id } => (3, id, None),
                ReferenceKind::Variable { id } => (4, id, None),
            };
            out.raw(&[2, byte]);
            out.str(id);
            out.flag(attribute.is_some());
            if let Some(attribute) = attribute {
                out.str(attribute);
            }
        }
        FluentError::ResolverError(ResolverError::NoValue(id)) => {
            out.u8(3);
            out.str(id);
        }
        FluentError::ResolverError(ResolverError::MissingDefault) => out.u8(4),
        FluentError::ResolverError(ResolverError::Cyclic) => out.u8(5),
        FluentError::ResolverError(ResolverError::TooManyPlaceables) => out.u8(6),
        FluentError::ParserError(_) => panic!("parsing is left out"),
    }
    out
}
