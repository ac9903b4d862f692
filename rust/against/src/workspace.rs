//! A message with three texts in the workspace, for the benchmarks. The same
//! tree is given to the original Rust and to the crate.

use crate::convert;
use crate::sheet::{id, inline, pattern, text, variable, Printed};
use fluent_syntax::ast::*;
use harness::case::{Bundle, Item, Value};

/// A workspace that was chosen without a figure.
pub const LONG: usize = 65_536;

/// `-animal({ $observer }, size: "larg\u0065")`
fn animal() -> InlineExpression<String> {
    let observer = Expression::Inline(variable("observer"));
    let size = InlineExpression::StringLiteral {
        value: "larg\\u0065".into(),
    };
    InlineExpression::TermReference {
        id: id("animal"),
        attribute: None,
        arguments: Some(CallArguments {
            positional: vec![InlineExpression::Placeable {
                expression: Box::new(observer),
            }],
            named: vec![NamedArgument {
                name: id("size"),
                value: size,
            }],
        }),
    }
}

/// `{ kind -> [minke] { -animal({ $observer }, size: "larg\u0065") } *[other] an
/// animal }`
fn chosen() -> PatternElement<String> {
    let variant = |name: &str, default, element| Variant {
        key: VariantKey::Identifier { name: name.into() },
        default,
        value: pattern(vec![element]),
    };
    PatternElement::Placeable {
        expression: Expression::Select {
            selector: InlineExpression::MessageReference {
                id: id("kind"),
                attribute: None,
            },
            variants: vec![
                variant("minke", false, inline(animal())),
                variant("other", true, text("an animal")),
            ],
        },
    }
}

fn message(name: &str, elements: Vec<PatternElement<String>>) -> Entry<String> {
    Entry::Message(Message {
        id: id(name),
        value: Some(pattern(elements)),
        attributes: vec![],
    })
}

/// Three entries: the message `chosen`, whose selector is a message and whose
/// variant is a term with two arguments, and those two.
pub fn printed() -> Printed {
    let animal = vec![text("a "), inline(variable("size")), text(" whale")];
    let body = vec![
        message("kind", vec![inline(variable("species"))]),
        Entry::Term(Term {
            id: id("animal"),
            value: pattern(animal),
            attributes: vec![],
        }),
        message("chosen", vec![text("Seen: "), chosen(), text(".")]),
    ];
    let given = [("observer", "Anna Berg"), ("species", "minke")];
    let given = given.map(|(name, value)| (name.into(), Value::Text(value.into())));
    Printed {
        bundle: Bundle {
            locale: 0,
            isolating: true,
            items: vec![Item::Plain(Resource { body })],
        },
        messages: vec![("chosen".into(), given.to_vec())],
    }
}

/// What its message needs of the workspace.
pub fn figure(printed: &Printed) -> usize {
    let (id, given) = &printed.messages[0];
    let args = convert::arguments(given);
    let done = printed.made().format(id, None, Some(&args));
    done.expect("formatted").figures.work
}
