//! Seeded bundles, arguments and cases, always well-formed by document 01, and
//! arguments in the form that document 02 accepts.

mod calls;
mod chains;
mod escapes;
mod fans;
mod fractions;
mod inline;
mod listed;
mod made;
mod marked;
mod patterns;
mod plurals;
mod sheet;
mod source;
mod unmarked;
mod words;

use crate::case::{accepted, Bundle, Case, Item, Value};
use crate::encode;
use crate::model::lookup::holder;
use crate::model::reader;
use crate::random::Random;
use crate::vectors::numbers::decimal;
pub(crate) use escapes::literal;
pub use escapes::{escapes, escapes_sheet};
use fluent_syntax::ast::*;
pub use fractions::{fractions, fractions_sheet};
pub(crate) use listed::most;
pub use listed::{listed, listed_sheet, Listed, ListedSheet, Listing, Place, LISTINGS, PLACES};
pub use marked::{marked, marked_sheet};
pub use plurals::{plurals, plurals_sheet};
pub use sheet::sheet_generator;
pub use unmarked::{checked, checked_sheet, unmarked, unmarked_sheet};
use words::{Words, ATTRIBUTES, FUNCTIONS, IDS, USUAL, VARIABLES};

/// The case of a seed.
pub fn generator(seed: u64) -> Case {
    Maker::new(seed).case()
}

type Inline = InlineExpression<String>;

pub struct Maker {
    r: Random,
    /// How many more expressions may be made.
    left: usize,
    /// Whether `g` and `h` are there.
    many: bool,
    words: Words,
}

fn id(name: &str) -> Identifier<String> {
    Identifier { name: name.into() }
}

pub fn text(value: &str) -> PatternElement<String> {
    PatternElement::TextElement {
        value: value.into(),
    }
}

pub fn placeable(inline: Inline) -> PatternElement<String> {
    PatternElement::Placeable {
        expression: Expression::Inline(inline),
    }
}

impl Maker {
    pub fn new(seed: u64) -> Self {
        Self {
            r: Random::new(seed.wrapping_mul(0x2545_F491_4F6C_DD1D)),
            left: 0,
            many: false,
            words: USUAL,
        }
    }

    fn one_of(&mut self, words: &[&str]) -> String {
        self.r.pick(words).to_string()
    }

    pub fn case(&mut self) -> Case {
        let mut bundle = self.bundle();
        let mut messages = held_messages(&bundle);
        while messages.is_empty() && !self.r.one_in(20) {
            bundle = self.bundle();
            messages = held_messages(&bundle);
        }
        let arguments = self.arguments();
        let (mut message, mut attribute) = ("a".to_string(), None);
        let around = self.many && self.r.one_in(2);
        if !messages.is_empty() && !around {
            let (name, valued, attributes) = self.r.pick(&messages).clone();
            message = name;
            let some = self.r.one_in(5);
            if !valued && !self.r.one_in(8) || some {
                attribute = attributes.first().cloned();
            }
        }
        if self.r.one_in(60) {
            attribute = Some(self.one_of(&ATTRIBUTES));
        }
        if self.r.one_in(80) {
            message = self.one_of(&IDS);
        }
        Case {
            bundle,
            message,
            attribute,
            arguments,
        }
    }

    pub fn bundle(&mut self) -> Bundle {
        self.left = match self.r.below(4) {
            0 => 3,
            1 => 6,
            2 => 10,
            _ if self.r.one_in(8) => 60,
            _ => 20,
        };
        self.many = self.r.one_in(3);
        let mut items = Vec::new();
        if !self.r.one_in(5) {
            items.push(Item::Function("NUMBER".into()));
        }
        for _ in 0..1 + self.r.below(3) {
            let resource = self.resource();
            items.push(match self.r.one_in(4) {
                true => Item::Overriding(resource),
                false => Item::Plain(resource),
            });
            if self.r.one_in(6) {
                items.push(Item::Function(self.one_of(&FUNCTIONS)));
            }
        }
        if self.many {
            items.push(Item::Plain(self.fan()));
            if !self.r.one_in(4) {
                items.push(Item::Overriding(self.around()));
            }
        }
        Bundle {
            locale: match self.r.one_in(2) {
                true => 0,
                false => self.r.below(4) as u8,
            },
            isolating: !self.r.one_in(4),
            items,
        }
    }

    pub fn resource(&mut self) -> Resource<String> {
        let count = match self.r.below(12) {
            0 => 0,
            n => 1 + n % 3,
        };
        let body = (0..count).map(|_| self.entry()).collect();
        Resource { body }
    }

    pub fn arguments(&mut self) -> Vec<(String, Value)> {
        let listed: Vec<_> = (0..self.r.below(4))
            .map(|_| {
                let name = match self.r.one_in(3) {
                    true => "n".to_string(),
                    false => self.one_of(&VARIABLES),
                };
                let value = match self.r.below(7) {
                    0..=2 => Value::Text(self.one_of(self.words.texts)),
                    3 => Value::None,
                    4 => Value::Number(decimal(&mut self.r)),
                    _ => Value::Number(crate::model::number::Decimal {
                        negative: self.r.one_in(8),
                        digits: self.r.below(25) as u64,
                        scale: if self.r.one_in(4) { 1 } else { 0 },
                    }),
                };
                (name, value)
            })
            .collect();
        accepted(&listed)
    }
}

/// The messages that hold their ids: id, whether there is a value, attributes.
fn held_messages(bundle: &Bundle) -> Vec<(String, bool, Vec<String>)> {
    held_of(bundle, &IDS)
}

/// Those of these ids.
fn held_of(bundle: &Bundle, ids: &[&str]) -> Vec<(String, bool, Vec<String>)> {
    let name = |id: &[u8]| String::from_utf8_lossy(id).into_owned();
    let store = reader::store(&encode::store(bundle)).expect("a well-formed store");
    ids.iter()
        .filter_map(|id| holder(&store, id.as_bytes())?.message())
        .map(|entry| {
            let attributes = entry.attributes.iter().map(|(id, _)| name(id));
            (name(&entry.id), entry.value.is_some(), attributes.collect())
        })
        .collect()
}
