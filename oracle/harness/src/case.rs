//! A formatting case as the generator makes it, over the Rust's own tree.

use crate::model::number::Decimal;
use fluent_syntax::ast::Resource;

pub use crate::case::accepted::{accepted, least};
pub use crate::case::sheet::{Given, Row, Sheet};

mod accepted;
mod sheet;

#[derive(Clone, Debug)]
pub struct Bundle {
    /// 0 en, 1 da, 2 ru, 3 cy.
    pub locale: u8,
    pub isolating: bool,
    pub items: Vec<Item>,
}

#[derive(Clone, Debug)]
pub enum Item {
    Plain(Resource<String>),
    Overriding(Resource<String>),
    /// NUMBER under this id.
    Function(String),
}

#[derive(Clone, Debug, PartialEq)]
pub enum Value {
    Text(String),
    Number(Decimal),
    None,
}

#[derive(Clone, Debug)]
pub struct Case {
    pub bundle: Bundle,
    pub message: String,
    pub attribute: Option<String>,
    /// Whatever their order, both sides get them in the accepted form.
    pub arguments: Vec<(String, Value)>,
}
