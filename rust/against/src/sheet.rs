//! Sheets of 30 messages for the benchmarks: of a store of 60 entries, and of
//! the sentences of `sheets/en.ftl`. The same tree is given to the original Rust
//! and to the crate.

use crate::convert;
use fluent_syntax::ast::*;
use harness::case::{Bundle, Item, Value};
use harness::model::number::Decimal;
use harness::sheets;
use std::path::Path;
use weszlagyo::{FluentBundle, Locale};

pub(crate) fn id(name: impl Into<String>) -> Identifier<String> {
    Identifier { name: name.into() }
}

pub(crate) fn text(value: &str) -> PatternElement<String> {
    PatternElement::TextElement {
        value: value.into(),
    }
}

pub(crate) fn inline(inline: InlineExpression<String>) -> PatternElement<String> {
    PatternElement::Placeable {
        expression: Expression::Inline(inline),
    }
}

pub(crate) fn variable(name: &str) -> InlineExpression<String> {
    InlineExpression::VariableReference { id: id(name) }
}

pub(crate) fn pattern(elements: Vec<PatternElement<String>>) -> Pattern<String> {
    Pattern { elements }
}

/// `{ $count -> [one] one WORD *[other] { NUMBER($count) } WORDs }`
fn counted(word: &str) -> PatternElement<String> {
    let number = InlineExpression::FunctionReference {
        id: id("NUMBER"),
        arguments: CallArguments {
            positional: vec![variable("count")],
            named: vec![],
        },
    };
    let variant = |name: &str, default, elements| Variant {
        key: VariantKey::Identifier { name: name.into() },
        default,
        value: pattern(elements),
    };
    let many = vec![inline(number), text(&format!(" {word}s"))];
    PatternElement::Placeable {
        expression: Expression::Select {
            selector: variable("count"),
            variants: vec![
                variant("one", false, vec![text(&format!("one {word}"))]),
                variant("other", true, many),
            ],
        },
    }
}

/// Six entries of the sheet's part `part`: three messages that are printed, a
/// message and a term that they refer to, and one with an attribute.
pub fn part(part: usize) -> Resource<String> {
    let message = |name: String, elements| {
        Entry::Message(Message {
            id: id(name),
            value: Some(pattern(elements)),
            attributes: vec![],
        })
    };
    let term = InlineExpression::TermReference {
        id: id(format!("species-{part}")),
        attribute: None,
        arguments: None,
    };
    let place = InlineExpression::MessageReference {
        id: id(format!("place-{part}")),
        attribute: None,
    };
    Resource {
        body: vec![
            message(
                format!("sighting-{part}"),
                vec![
                    text("Observer "),
                    inline(variable("observer")),
                    text(" saw "),
                    counted("whale"),
                    text(" of the species "),
                    inline(term),
                    text("."),
                ],
            ),
            message(
                format!("position-{part}"),
                vec![
                    text("The leg ended "),
                    inline(place),
                    text(", "),
                    inline(variable("distance")),
                    text(" nautical miles from the line."),
                ],
            ),
            message(
                format!("weather-{part}"),
                vec![text("Sea state calm, visibility good, glare slight.")],
            ),
            message(
                format!("place-{part}"),
                vec![text("north of the "), inline(variable("observer"))],
            ),
            Entry::Term(Term {
                id: id(format!("species-{part}")),
                value: pattern(vec![text("Phocoena phocoena")]),
                attributes: vec![],
            }),
            Entry::Message(Message {
                id: id(format!("button-{part}")),
                value: Some(pattern(vec![text("Print")])),
                attributes: vec![Attribute {
                    id: id("title"),
                    value: pattern(vec![text("Prints "), counted("page")]),
                }],
            }),
        ],
    }
}

pub const PARTS: usize = 10;

/// Ten parts and NUMBER: 60 entries.
pub fn items() -> Vec<Item> {
    let parts = (0..PARTS).map(|n| Item::Plain(part(n)));
    let number = std::iter::once(Item::Function("NUMBER".into()));
    number.chain(parts).collect()
}

/// A bundle, and the messages of a sheet with their arguments.
pub struct Printed {
    pub bundle: Bundle,
    pub messages: Vec<(String, Vec<(String, Value)>)>,
}

impl Printed {
    /// The bundle, as the crate makes it.
    pub fn made(&self) -> FluentBundle {
        let locale = Locale::from_number(self.bundle.locale).expect("one of the four");
        let mut made = FluentBundle::new(vec![locale]);
        made.set_use_isolating(self.bundle.isolating);
        for item in &self.bundle.items {
            match item {
                Item::Plain(tree) | Item::Overriding(tree) => made
                    .add_resource(convert::resource(tree).expect("well-formed"))
                    .expect("no id twice"),
                Item::Function(id) => made
                    .add_function(id, weszlagyo::builtins::NUMBER)
                    .expect("it is new"),
            }
        }
        made
    }
}

/// How many messages a sheet has.
const MESSAGES: usize = 30;

/// Three messages of each of the ten parts, all with the same arguments.
pub fn parts() -> Printed {
    let kinds = ["sighting", "position", "weather"];
    let ids = (0..PARTS).flat_map(|n| kinds.map(|kind| format!("{kind}-{n}")));
    let messages: Vec<_> = ids.map(|id| (id, arguments())).collect();
    assert_eq!(messages.len(), MESSAGES);
    Printed {
        bundle: Bundle {
            locale: 0,
            isolating: true,
            items: items(),
        },
        messages,
    }
}

/// The four messages of the printed sheet over and over, each time of another
/// sighting.
pub fn sightings() -> Printed {
    let root = Path::new(concat!(env!("CARGO_MANIFEST_DIR"), "/../.."));
    let ids = ["sheet", "seen", "away", "who"];
    let messages = (0..MESSAGES).map(|n| (ids[n % 4].to_string(), sighting(n / 4)));
    Printed {
        bundle: sheets::bundle(root, 0),
        messages: messages.collect(),
    }
}

/// The fields of a sighting.
fn sighting(n: usize) -> Vec<(String, Value)> {
    let species = ["porpoise", "minke", "humpback", "dolphin", "seal"][n % 5];
    let observer = ["Anna Berg", "Bo Ås", "Carys"][n % 3];
    let [count, calves] = [n % 4 * 5, n % 3].map(|n| n.to_string());
    let [distance, leg] = [40 + 180 * n, n + 1].map(|n| n.to_string());
    let fields = [species, &count, &calves, &distance, &leg, observer];
    let names = sheets::USUAL.map(|(name, _)| name);
    let fields: Vec<_> = names.into_iter().zip(fields).collect();
    sheets::arguments(&fields)
}

pub fn arguments() -> Vec<(String, Value)> {
    let number = |digits, scale| {
        Value::Number(Decimal {
            negative: false,
            digits,
            scale,
        })
    };
    vec![
        ("count".into(), number(3, 0)),
        ("distance".into(), number(125, 1)),
        ("observer".into(), Value::Text("Ada".into())),
    ]
}
