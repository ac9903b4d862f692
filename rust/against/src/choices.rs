//! A message of twenty choices, for the benchmarks: what the choice of a variant by
//! a number's plural category costs. The same tree is given to the original Rust and
//! to the crate.

use crate::sheet::{id, pattern, text, variable, Printed};
use fluent_syntax::ast::*;
use harness::case::{Bundle, Item, Value};
use harness::model::number::{literal, Number};
use std::fmt;
use weszlagyo::Locale;

/// How many choices the message has, and how many numbers.
pub const COUNT: usize = 20;

/// The categories, and the text of the variant of each.
const VARIANTS: [(&str, &str); 6] = [
    ("zero", "z"),
    ("one", "i"),
    ("two", "t"),
    ("few", "f"),
    ("many", "m"),
    ("other", "o"),
];

/// Whole numbers below 100.
const BELOW: [&str; COUNT] = [
    "0", "1", "2", "3", "4", "5", "6", "7", "8", "10", "11", "12", "13", "21", "22", "33", "54",
    "71", "86", "99",
];

/// Whole numbers of 100 and more.
const ABOVE: [&str; COUNT] = [
    "100",
    "101",
    "102",
    "103",
    "104",
    "105",
    "111",
    "112",
    "113",
    "121",
    "122",
    "1000",
    "1001",
    "1011",
    "1012",
    "20121",
    "1000003",
    "987654321",
    "10000000000011",
    "100000000000000",
];

/// Numbers with a fraction.
const FRACTIONS: [&str; COUNT] = [
    "0.1",
    "0.5",
    "1.1",
    "1.5",
    "2.5",
    "3.25",
    "5.75",
    "6.5",
    "10.1",
    "11.5",
    "12.25",
    "21.25",
    "22.5",
    "33.3",
    "54.125",
    "71.9",
    "86.4",
    "99.99",
    "100.5",
    "1234.5678",
];

/// The numbers of a message.
#[derive(Clone, Copy, Debug)]
pub enum Numbers {
    /// Whole, below 100.
    Below,
    /// Whole, of 100 and more.
    Above,
    /// With a fraction.
    Fractions,
}

impl Numbers {
    fn digits(self) -> [&'static str; COUNT] {
        match self {
            Self::Below => BELOW,
            Self::Above => ABOVE,
            Self::Fractions => FRACTIONS,
        }
    }
}

/// A message: by which rule its categories are chosen, and for which numbers.
#[derive(Clone, Copy, Debug)]
pub struct Choices {
    pub locale: Locale,
    pub ordinal: bool,
    pub numbers: Numbers,
}

impl fmt::Display for Choices {
    fn fmt(&self, f: &mut fmt::Formatter<'_>) -> fmt::Result {
        let language = match self.locale {
            Locale::En => "English",
            Locale::Da => "Danish",
            Locale::Ru => "Russian",
            Locale::Cy => "Welsh",
        };
        let kind = match self.ordinal {
            false => "cardinal",
            true => "ordinal",
        };
        let numbers = match self.numbers {
            Numbers::Below => "whole numbers below 100",
            Numbers::Above => "whole numbers of 100 and more",
            Numbers::Fractions => "numbers with a fraction",
        };
        write!(f, "{language} {kind}, {numbers}")
    }
}

const fn cardinal(locale: Locale, numbers: Numbers) -> Choices {
    Choices {
        locale,
        ordinal: false,
        numbers,
    }
}

const fn ordinal(locale: Locale, numbers: Numbers) -> Choices {
    Choices {
        locale,
        ordinal: true,
        numbers,
    }
}

/// The messages that are tried.
pub const ALL: [Choices; 10] = [
    cardinal(Locale::En, Numbers::Below),
    cardinal(Locale::Da, Numbers::Below),
    cardinal(Locale::Ru, Numbers::Below),
    cardinal(Locale::Ru, Numbers::Above),
    cardinal(Locale::Ru, Numbers::Fractions),
    cardinal(Locale::Cy, Numbers::Below),
    cardinal(Locale::Cy, Numbers::Above),
    ordinal(Locale::En, Numbers::Below),
    ordinal(Locale::En, Numbers::Above),
    ordinal(Locale::Cy, Numbers::Below),
];

/// `$NAME`, or `NUMBER($NAME, type: "ordinal")`.
fn selector(name: &str, ordinal: bool) -> InlineExpression<String> {
    if !ordinal {
        return variable(name);
    }
    InlineExpression::FunctionReference {
        id: id("NUMBER"),
        arguments: CallArguments {
            positional: vec![variable(name)],
            named: vec![NamedArgument {
                name: id("type"),
                value: InlineExpression::StringLiteral {
                    value: "ordinal".into(),
                },
            }],
        },
    }
}

/// `{ SELECTOR -> [zero] z [one] i [two] t [few] f [many] m *[other] o }`
fn choice(selector: InlineExpression<String>) -> PatternElement<String> {
    let variants = VARIANTS.map(|(category, letter)| Variant {
        key: VariantKey::Identifier {
            name: category.into(),
        },
        default: category == "other",
        value: pattern(vec![text(letter)]),
    });
    PatternElement::Placeable {
        expression: Expression::Select {
            selector,
            variants: variants.into(),
        },
    }
}

/// The names of the arguments, in name order.
fn names() -> impl Iterator<Item = String> {
    ('a'..='z').map(String::from).take(COUNT)
}

/// The message `a` of so many choices, with those arguments, and NUMBER.
fn made(
    locale: Locale,
    selector: impl Fn(&str) -> InlineExpression<String>,
    given: Vec<Value>,
) -> Printed {
    let choices = names().map(|name| choice(selector(&name)));
    let body = vec![Entry::Message(Message {
        id: id("a"),
        value: Some(pattern(choices.collect())),
        attributes: vec![],
    })];
    Printed {
        bundle: Bundle {
            locale: locale.number(),
            isolating: false,
            items: vec![
                Item::Function("NUMBER".into()),
                Item::Plain(Resource { body }),
            ],
        },
        messages: vec![("a".into(), names().zip(given).collect())],
    }
}

impl Choices {
    /// The message, each choice by another number.
    pub fn printed(self) -> Printed {
        let given = self.given().map(|number| Value::Number(number.value));
        made(
            self.locale,
            |name| selector(name, self.ordinal),
            given.collect(),
        )
    }

    /// The same text chosen without a category: by its name, a text.
    pub fn by_name(self) -> Printed {
        let name = |number: Number| number.category(self.locale.number()).to_string();
        let given = self.given().map(|number| Value::Text(name(number)));
        made(self.locale, variable, given.collect())
    }

    /// Its numbers, of their kind.
    fn given(self) -> impl Iterator<Item = Number> {
        self.numbers.digits().into_iter().map(move |digits| {
            let (value, _) = literal(digits.as_bytes()).expect("a number literal");
            let mut number = Number::plain(value);
            number.options.ordinal = self.ordinal;
            number
        })
    }
}
