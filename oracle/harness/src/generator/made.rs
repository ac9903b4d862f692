//! Formattings and sheets that are full of one kind of thing: a bundle with always the
//! same messages and terms, and arguments with always the same names.

use super::source::{Source, Written};
use super::Maker;
use crate::case::{accepted, Bundle, Case, Given, Item, Row, Sheet, Value};
use crate::ftl;
use crate::model::number::{Decimal, Number};
use crate::random::Random;
use std::marker::PhantomData;

/// What they are full of.
pub(super) trait Kind: Written {
    /// What an argument that is a text may be.
    const TEXTS: &'static [&'static str];

    fn locale(r: &mut Random) -> u8;

    /// An argument that is a number.
    fn number(r: &mut Random) -> Decimal;
}

pub(super) struct Made<K> {
    pub r: Random,
    kind: PhantomData<K>,
}

impl<K: Kind> Made<K> {
    pub fn new(seed: u64) -> Self {
        Self {
            r: Random::new(seed.wrapping_mul(0x2545_F491_4F6C_DD1D)),
            kind: PhantomData,
        }
    }

    pub fn case(&mut self) -> Case {
        let bundle = self.bundle();
        let (mut message, mut attribute) = ("a", None);
        match self.r.below(60) {
            0 => message = "zz",
            1 => attribute = Some("no"),
            2..=8 => attribute = Some("x"),
            9..=12 => message = "b",
            _ => {}
        }
        Case {
            bundle,
            message: message.into(),
            attribute: attribute.map(Into::into),
            arguments: self.arguments(),
        }
    }

    /// One to twelve messages; in one of eight sheets something is wrong with one of
    /// them, by a seed of its own.
    pub fn sheet(&mut self, spoiled: u64) -> Sheet {
        let bundle = self.bundle();
        let count = 1 + self.r.below(12);
        let mut rows: Vec<Row> = (0..count).map(|_| self.row()).collect();
        if self.r.one_in(8) {
            let at = self.r.below(count);
            Maker::new(spoiled).spoil(&mut rows[at]);
        }
        Sheet { bundle, rows }
    }

    /// Most times with NUMBER.
    fn bundle(&mut self) -> Bundle {
        let source = K::entries(Source::new(&mut self.r));
        let mut items = vec![Item::Plain(ftl::resource(&source))];
        if !self.r.one_in(30) {
            items.insert(0, Item::Function("NUMBER".into()));
        }
        if self.r.one_in(12) {
            let source = Source::<K>::new(&mut self.r).another();
            items.push(match self.r.one_in(2) {
                true => Item::Plain(ftl::resource(&source)),
                false => Item::Overriding(ftl::resource(&source)),
            });
        }
        Bundle {
            locale: K::locale(&mut self.r),
            isolating: self.r.one_in(2),
            items,
        }
    }

    fn row(&mut self) -> Row {
        let (message, attribute) = match self.r.below(8) {
            0..=3 => ("a", None),
            4 => ("a", Some("x")),
            5 | 6 => ("b", None),
            _ => ("c", None),
        };
        Row {
            message: message.into(),
            attribute: attribute.map(Into::into),
            arguments: Given::Values(self.arguments()),
        }
    }

    /// `n` and `m` are numbers, `s` is a text and `v` is none; each may be missing, and
    /// `q` is.
    fn arguments(&mut self) -> Vec<(String, Value)> {
        let text = Value::Text(self.r.pick(K::TEXTS).to_string());
        let mut given = vec![
            ("n", Value::Number(K::number(&mut self.r))),
            ("m", Value::Number(K::number(&mut self.r))),
            ("s", text),
            ("v", Value::None),
        ];
        given.retain(|_| !self.r.one_in(12));
        let given = given.into_iter().map(|(name, v)| (name.to_string(), v));
        accepted(&given.collect::<Vec<_>>())
    }
}

/// A decimal as a number literal, with all its fraction digits.
pub(super) fn as_literal(d: Decimal) -> String {
    let text = Number::with_minimum(d, Some(d.scale.into())).text();
    String::from_utf8(text).expect("it is text")
}
