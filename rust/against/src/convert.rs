//! From the oracle's tree, values and errors to the crate's, and the crate's
//! errors to document 01's bytes.

use fluent_syntax::ast;
use harness::bytes::Write;
use harness::case::Value;
use weszlagyo::syntax::{
    Arguments, Element, Expression, Inline, Key, Literal, Pattern, Select, Variant,
};
use weszlagyo::{
    EntryKind, FluentArgs, FluentError, FluentNumber, FluentResource, FluentValue, ReferenceKind,
    Refusal, ResolverError,
};

pub fn resource(tree: &ast::Resource<String>) -> Result<FluentResource, Refusal> {
    let mut builder = FluentResource::builder();
    for entry in &tree.body {
        let attributes = match entry {
            ast::Entry::Message(m) => {
                builder = match &m.value {
                    Some(value) => builder.message(&m.id.name, pattern(value)),
                    None => builder.message_without_value(&m.id.name),
                };
                &m.attributes
            }
            ast::Entry::Term(t) => {
                builder = builder.term(&t.id.name, pattern(&t.value));
                &t.attributes
            }
            ast::Entry::Junk { .. } => continue,
        };
        for attribute in attributes {
            builder = builder.attribute(&attribute.id.name, pattern(&attribute.value));
        }
    }
    builder.build()
}

fn pattern(tree: &ast::Pattern<String>) -> Pattern {
    let elements = tree.elements.iter().map(|element| match element {
        ast::PatternElement::TextElement { value } => Element::Text(value.clone()),
        ast::PatternElement::Placeable { expression: e } => Element::Placeable(expression(e)),
    });
    Pattern {
        elements: elements.collect(),
    }
}

fn expression(tree: &ast::Expression<String>) -> Expression {
    match tree {
        ast::Expression::Inline(e) => Expression::Inline(inline(e)),
        ast::Expression::Select { selector, variants } => Expression::Select(Select {
            selector: inline(selector),
            variants: variants
                .iter()
                .map(|variant| Variant {
                    key: match &variant.key {
                        ast::VariantKey::Identifier { name } => Key::Id(name.clone()),
                        ast::VariantKey::NumberLiteral { value } => Key::Number(value.clone()),
                    },
                    default: variant.default,
                    value: pattern(&variant.value),
                })
                .collect(),
        }),
    }
}

fn inline(tree: &ast::InlineExpression<String>) -> Inline {
    use ast::InlineExpression as From;
    let name = |id: &ast::Identifier<String>| id.name.clone();
    match tree {
        From::StringLiteral { value } => Inline::String(value.clone()),
        From::NumberLiteral { value } => Inline::Number(value.clone()),
        From::FunctionReference { id, arguments } => Inline::Function {
            id: name(id),
            arguments: call(arguments),
        },
        From::MessageReference { id, attribute } => Inline::Message {
            id: name(id),
            attribute: attribute.as_ref().map(name),
        },
        From::TermReference {
            id,
            attribute,
            arguments,
        } => Inline::Term {
            id: name(id),
            attribute: attribute.as_ref().map(name),
            arguments: arguments.as_ref().map(call),
        },
        From::VariableReference { id } => Inline::Variable(name(id)),
        From::Placeable { expression: e } => Inline::Placeable(Box::new(expression(e))),
    }
}

fn call(tree: &ast::CallArguments<String>) -> Arguments {
    let named = tree.named.iter().map(|argument| {
        let value = match &argument.value {
            ast::InlineExpression::NumberLiteral { value } => Literal::Number(value.clone()),
            ast::InlineExpression::StringLiteral { value } => Literal::String(value.clone()),
            other => panic!("a named argument is a literal, and not {other:?}"),
        };
        (argument.name.name.clone(), value)
    });
    Arguments {
        positional: tree.positional.iter().map(inline).collect(),
        named: named.collect(),
    }
}

/// The crate's arguments, set in this order: names and scales are the crate's own to bring in order.
pub fn arguments(from: &[(String, Value)]) -> FluentArgs<'_> {
    let value = |value| match value {
        &Value::Number(d) => {
            let number = FluentNumber::new(d.negative, d.digits, d.scale);
            FluentValue::Number(number.expect("the generator's numbers have 15 digits"))
        }
        Value::Text(text) => FluentValue::from(text.as_str()),
        Value::None => FluentValue::None,
    };
    from.iter()
        .map(|(name, given)| (name.as_str(), value(given)))
        .collect()
}

/// The list that the crate's errors make.
pub fn error_list(errors: &[FluentError]) -> Vec<u8> {
    let mut records = Vec::new();
    for error in errors {
        records.str(record(error));
    }
    let mut list = Vec::new();
    list.u32(5 + records.len());
    list.u8(1);
    list.raw(&records);
    list
}

fn record(error: &FluentError) -> Vec<u8> {
    let mut out = Vec::new();
    match error {
        FluentError::Overriding { kind, id } => {
            out.u8(1);
            out.u8(match kind {
                EntryKind::Message => 1,
                EntryKind::Term => 2,
                EntryKind::Function => 3,
            });
            out.str(id);
        }
        FluentError::ResolverError(ResolverError::Reference(kind)) => {
            let (byte, id, attribute) = match kind {
                ReferenceKind::Message { id, attribute } => (1, id, attribute.as_ref()),
                ReferenceKind::Term { id, attribute } => (2, id, attribute.as_ref()),
                ReferenceKind::Function { id } => (3, id, None),
                ReferenceKind::Variable { id } => (4, id, None),
            };
            out.raw(&[2, byte]);
            out.str(id);
            out.flag(attribute.is_some());
            if let Some(attribute) = attribute {
                out.str(attribute);
            }
        }
        FluentError::ResolverError(ResolverError::NoValue(id)) => {
            out.u8(3);
            out.str(id);
        }
        FluentError::ResolverError(ResolverError::MissingDefault) => out.u8(4),
        FluentError::ResolverError(ResolverError::Cyclic) => out.u8(5),
        FluentError::ResolverError(ResolverError::TooManyPlaceables) => out.u8(6),
        FluentError::Refused(refusal) => out.u8(0x80 | refusal.number()),
    }
    out
}
