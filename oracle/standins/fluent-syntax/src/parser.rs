//! In the parser's place: parsing is left out by document 01, so a resource's
//! source is the plain notation of this crate.

use crate::{ast, notation};
use std::fmt;

#[derive(Clone, Debug, Eq, PartialEq)]
pub struct ParserError;

impl fmt::Display for ParserError {
    fn fmt(&self, f: &mut fmt::Formatter<'_>) -> fmt::Result {
        f.write_str("not in the plain notation")
    }
}

impl std::error::Error for ParserError {}

pub type Result<S> = std::result::Result<ast::Resource<S>, (ast::Resource<S>, Vec<ParserError>)>;

pub fn parse_runtime(input: &str) -> Result<&str> {
    match notation::read(input) {
        Some(resource) => Ok(resource),
        None => Err((ast::Resource { body: Vec::new() }, vec![ParserError])),
    }
}
