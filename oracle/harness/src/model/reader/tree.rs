//! What a store, a resource image, an arguments image and a sheet image are read
//! into.

use crate::model::number::Decimal;

pub type Id = Vec<u8>;

pub struct Store {
    pub used: usize,
    pub locale: u8,
    pub isolating: bool,
    pub items: Vec<Item>,
}

pub enum Item {
    Resource {
        overriding: bool,
        entries: Vec<Entry>,
    },
    Function(Id),
}

pub struct Entry {
    pub term: bool,
    pub id: Id,
    pub value: Option<Pattern>,
    pub attributes: Vec<(Id, Pattern)>,
}

/// A pattern keeps the bytes it was read from: equal patterns are equal bytes.
pub struct Pattern {
    pub bytes: Vec<u8>,
    pub elements: Vec<Element>,
}

pub enum Element {
    Text(Vec<u8>),
    Placeable(Expression),
}

pub enum Expression {
    Inline(Inline),
    Select(Inline, Vec<Variant>),
}

pub struct Variant {
    pub key: Key,
    pub default: bool,
    pub pattern: Pattern,
}

pub enum Key {
    Id(Id),
    Number(Vec<u8>),
}

pub enum Inline {
    Text(Vec<u8>),
    Number(Vec<u8>),
    Function(Id, Arguments),
    Message(Id, Option<Id>),
    Term(Id, Option<Id>, Option<Arguments>),
    Variable(Id),
    Placeable(Box<Expression>),
}

pub struct Arguments {
    pub positional: Vec<Inline>,
    pub named: Vec<(Id, Inline)>,
}

#[derive(Clone, Debug, PartialEq)]
pub enum Given {
    Text(Vec<u8>),
    Number(Decimal),
    None,
}

/// A message of a sheet; its arguments image is not read yet.
#[derive(Clone, Debug, PartialEq)]
pub struct Row {
    pub message: Id,
    pub attribute: Option<Id>,
    pub arguments: Vec<u8>,
}
