//! Arguments as document 02's Card 2 accepts them.

use super::Value;
use std::collections::BTreeMap;

/// The accepted form of some arguments: sorted by the bytes of their names, of
/// equal names the last, each number with its least scale.
pub fn accepted(listed: &[(String, Value)]) -> Vec<(String, Value)> {
    let mut held = BTreeMap::new();
    for (name, value) in listed {
        held.insert(name.clone(), least(value));
    }
    held.into_iter().collect()
}

/// The value; of a number with the smallest scale that gives it.
pub fn least(value: &Value) -> Value {
    match value {
        Value::Number(decimal) => Value::Number(decimal.shortest()),
        Value::Text(_) | Value::None => value.clone(),
    }
}
