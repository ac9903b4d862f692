//! The values of selectors and arguments, and which keys they match.

use super::number::Number;
use super::reader::{Key, Variant};

#[derive(Clone)]
pub(super) enum Value {
    Text(Vec<u8>),
    /// A text of the workspace: how many were kept before it, and its bytes.
    Kept(usize, Vec<u8>),
    Number(Box<Number>),
    None,
    Error,
}

/// The place of the first variant whose key matches a value, whose text is given if
/// it is one.
pub(super) fn found(
    variants: &[Variant],
    value: &Value,
    text: Option<&[u8]>,
    locale: u8,
) -> Option<usize> {
    let mut keys = variants.iter().map(|variant| &variant.key);
    keys.position(|key| matches(key, value, text, locale))
}

/// Whether the search that found this asks for a number's category, as it comes to a
/// key that is an id; and then, whether that is the key that was found.
pub(super) fn asks_category(variants: &[Variant], found: Option<usize>) -> Option<bool> {
    let end = found.map_or(variants.len(), |at| at + 1);
    let by_word = |variant: &Variant| matches!(variant.key, Key::Id(_));
    let asked = variants[..end].iter().any(by_word);
    asked.then(|| found.is_some_and(|at| by_word(&variants[at])))
}

fn matches(key: &Key, value: &Value, text: Option<&[u8]>, locale: u8) -> bool {
    match (key, value) {
        (Key::Id(id), Value::Text(_) | Value::Kept(..)) => Some(&id[..]) == text,
        (Key::Id(id), Value::Number(number)) => number.category(locale).as_bytes() == id,
        (Key::Number(literal), Value::Number(n)) => Number::of_literal(literal).equals(n),
        _ => false,
    }
}
