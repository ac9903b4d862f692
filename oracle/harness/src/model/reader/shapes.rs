//! The shapes of document 01: items, entries, patterns, expressions and values.

use super::fields::Reader;
use super::resource;
use super::tree::*;
use crate::model::number::Decimal;

const DEPTH_LIMIT: usize = 32;

impl Reader<'_> {
    pub(super) fn item(&mut self) -> Option<Item> {
        let mode = self.u8()?;
        let length = Self::whole(self.bytes.get(self.at..)?).u32()?;
        let record = self.take(length)?;
        match mode {
            1 | 2 => Some(Item::Resource {
                overriding: mode == 2,
                entries: resource(record)?,
            }),
            3 => {
                let mut r = Self::whole(record);
                r.u32()?;
                r.exactly(1)?;
                r.exactly(1)?;
                let id = r.id()?;
                r.done()?;
                Some(Item::Function(id))
            }
            _ => None,
        }
    }

    pub(super) fn entry(&mut self) -> Option<Entry> {
        let kind = self.u8()?;
        if kind != 1 && kind != 2 {
            return None;
        }
        let id = self.id()?;
        let value = match self.flag()? {
            true => Some(self.pattern(1)?),
            false => None,
        };
        let count = self.u16()?;
        let attributes = self.times(count, |r| Some((r.id()?, r.pattern(1)?)))?;
        let term = kind == 2;
        if value.is_none() && (term || attributes.is_empty()) {
            return None;
        }
        Some(Entry {
            term,
            id,
            value,
            attributes,
        })
    }

    /// A pattern whose elements' expressions have the given depth.
    fn pattern(&mut self, depth: usize) -> Option<Pattern> {
        let start = self.at;
        let length = self.u32()?;
        let mut r = Self::whole(self.take(length)?);
        let count = r.u16()?;
        if count == 0 {
            return None;
        }
        let elements = r.times(count, |r| match r.u8()? {
            1 => Some(Element::Text(r.text().filter(|t| !t.is_empty())?)),
            2 => Some(Element::Placeable(r.expression(depth)?)),
            _ => None,
        })?;
        r.done()?;
        Some(Pattern {
            bytes: self.bytes[start..self.at].to_vec(),
            elements,
        })
    }

    fn expression(&mut self, depth: usize) -> Option<Expression> {
        if self.bytes.get(self.at) != Some(&8) {
            return Some(Expression::Inline(self.inline(depth)?));
        }
        if depth > DEPTH_LIMIT {
            return None;
        }
        self.u8()?;
        let selector = self.inline(depth + 1)?;
        let count = self.u16()?;
        if count == 0 {
            return None;
        }
        let variants = self.times(count, |r| {
            let key = match r.u8()? {
                1 => Key::Id(r.id()?),
                2 => Key::Number(r.number_literal()?),
                _ => return None,
            };
            Some(Variant {
                key,
                default: r.flag()?,
                pattern: r.pattern(depth + 1)?,
            })
        })?;
        Some(Expression::Select(selector, variants))
    }

    fn inline(&mut self, depth: usize) -> Option<Inline> {
        if depth > DEPTH_LIMIT {
            return None;
        }
        Some(match self.u8()? {
            1 => Inline::Text(self.string_literal()?),
            2 => Inline::Number(self.number_literal()?),
            3 => Inline::Function(self.id()?, self.call(depth)?),
            4 => Inline::Message(self.id()?, self.optional_id()?),
            5 => {
                let id = self.id()?;
                let attribute = self.optional_id()?;
                let arguments = match self.flag()? {
                    true => Some(self.call(depth)?),
                    false => None,
                };
                Inline::Term(id, attribute, arguments)
            }
            6 => Inline::Variable(self.id()?),
            7 => Inline::Placeable(Box::new(self.expression(depth + 1)?)),
            _ => return None,
        })
    }

    /// The arguments of a call that has the given depth.
    fn call(&mut self, depth: usize) -> Option<Arguments> {
        let count = self.u16()?;
        let positional = self.times(count, |r| r.inline(depth + 1))?;
        let count = self.u16()?;
        let named = self.times(count, |r| {
            let name = r.id()?;
            let value = match r.u8()? {
                1 => Inline::Text(r.string_literal()?),
                2 => Inline::Number(r.number_literal()?),
                _ => return None,
            };
            Some((name, value))
        })?;
        let twice = |at: usize| named[..at].iter().any(|(name, _)| *name == named[at].0);
        if (0..named.len()).any(twice) {
            return None;
        }
        Some(Arguments { positional, named })
    }

    pub(super) fn given(&mut self) -> Option<Given> {
        Some(match self.u8()? {
            1 => Given::Text(self.text()?),
            2 => {
                let negative = self.flag()?;
                let digits = self.number(8)?;
                let scale = self.at_most(14)?;
                if digits >= 1_000_000_000_000_000 {
                    return None;
                }
                Given::Number(Decimal {
                    negative,
                    digits,
                    scale,
                })
            }
            3 => Given::None,
            _ => return None,
        })
    }
}
