//! A message of twenty numbers, for the benchmarks: what a number's text costs. The
//! same tree is given to the original Rust and to the crate.

use crate::sheet::{id, inline, pattern, text, variable, Printed};
use fluent_syntax::ast::*;
use harness::case::{Bundle, Item, Value};
use harness::model::number::Decimal;

/// How many numbers the message has.
pub const COUNT: usize = 20;

/// The minimums of fraction digits that are tried: none, 0, and more than the number
/// has.
pub const MINIMUMS: [Option<&str>; 3] = [None, Some("0"), Some("2")];

/// `NUMBER($n)`, or with `minimumFractionDigits`.
fn number(minimum: Option<&str>) -> InlineExpression<String> {
    let named = minimum.map(|digits| NamedArgument {
        name: id("minimumFractionDigits"),
        value: InlineExpression::NumberLiteral {
            value: digits.into(),
        },
    });
    InlineExpression::FunctionReference {
        id: id("NUMBER"),
        arguments: CallArguments {
            positional: vec![variable("n")],
            named: named.into_iter().collect(),
        },
    }
}

/// The message `a` of so many numbers with that minimum, with $n 1234, and NUMBER.
pub fn printed(minimum: Option<&str>) -> Printed {
    let numbers = (0..COUNT).flat_map(|_| [inline(number(minimum)), text(" ")]);
    let body = vec![Entry::Message(Message {
        id: id("a"),
        value: Some(pattern(numbers.collect())),
        attributes: vec![],
    })];
    let given = Value::Number(Decimal {
        negative: false,
        digits: 1_234,
        scale: 0,
    });
    Printed {
        bundle: Bundle {
            locale: 0,
            isolating: false,
            items: vec![
                Item::Function("NUMBER".into()),
                Item::Plain(Resource { body }),
            ],
        },
        messages: vec![("a".into(), vec![("n".into(), given)])],
    }
}
