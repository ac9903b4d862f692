//! A call with many variables among many arguments, for the benchmarks. The same
//! tree is given to the original Rust and to the crate.

use crate::convert;
use crate::sheet::{id, inline, pattern, variable, Printed};
use fluent_syntax::ast::*;
use harness::case::{Bundle, Item, Value};
use harness::model::number::Decimal;

/// The most bytes of a resource image, and of an arguments image.
const IMAGE: usize = 65_536;

/// Bytes of an arguments image before its arguments.
const HEADER: usize = 7;

/// What a number takes in it beside its kind: sign, digits and scale.
const NUMBER: usize = 10;

/// How many letters there are.
const LETTERS: usize = 52;

/// Of the names of three letters one in so many is used: they are then from all over
/// the alphabet.
const APART: usize = 16;

/// So many names further on is the call's next variable: a prime, which divides the
/// number of variables in no size, so that each name has its turn.
const STRIDE: usize = 7_919;

/// How many variables a call has, and among how many arguments.
#[derive(Clone, Copy, Debug)]
pub struct Size {
    /// Variables in the call, each of another name.
    pub variables: usize,
    /// Arguments, at least those.
    pub arguments: usize,
}

/// A hundred, a thousand, and as many as fit.
pub fn sizes() -> [Size; 3] {
    let alike = |n| Size {
        variables: n,
        arguments: n,
    };
    [alike(100), alike(1_000), most()]
}

/// As many as fit a resource image and an arguments image.
fn most() -> Size {
    let no_variable = convert::resource(&resource(0)).expect("well-formed");
    Size {
        variables: fitting(no_variable.image().len()),
        arguments: fitting(HEADER + NUMBER),
    }
}

/// How many names fit an image that has so many bytes already. A name takes two
/// bytes for its length, its letters, and one byte more: the tag of a variable before
/// it, or the kind of its value behind it.
fn fitting(taken: usize) -> usize {
    let grown = names().scan(taken, |taken, name| {
        *taken += name.len() + 3;
        Some(*taken)
    });
    grown.take_while(|taken| *taken <= IMAGE).count()
}

/// The names, the short ones first: all of one letter and of two, and some of three.
fn names() -> impl Iterator<Item = String> {
    let of = |length| move |n| name(n, length);
    let short = (0..LETTERS)
        .map(of(1))
        .chain((0..LETTERS.pow(2)).map(of(2)));
    short.chain((0..LETTERS.pow(3)).step_by(APART).map(of(3)))
}

/// The name of so many letters with this number, in name order.
fn name(number: usize, length: u32) -> String {
    let letters: Vec<char> = ('A'..='Z').chain('a'..='z').collect();
    let places = (0..length).rev().map(|place| LETTERS.pow(place));
    places.map(|n| letters[number / n % LETTERS]).collect()
}

/// `a = { NUMBER($A, …) }`, with so many variables, not in name order.
fn resource(variables: usize) -> Resource<String> {
    let names: Vec<String> = names().take(variables).collect();
    let places = (0..variables).map(|n| n * STRIDE % variables);
    let call = InlineExpression::FunctionReference {
        id: id("NUMBER"),
        arguments: CallArguments {
            positional: places.map(|at| variable(&names[at])).collect(),
            named: vec![],
        },
    };
    Resource {
        body: vec![Entry::Message(Message {
            id: id("a"),
            value: Some(pattern(vec![inline(call)])),
            attributes: vec![],
        })],
    }
}

/// So many arguments, in name order. The first is the first of the call too, and a
/// number, which NUMBER needs; the others have no value.
fn arguments(count: usize) -> Vec<(String, Value)> {
    let mut names: Vec<String> = names().take(count).collect();
    names.sort();
    let mut given: Vec<_> = names.into_iter().map(|name| (name, Value::None)).collect();
    given[0].1 = Value::Number(Decimal {
        negative: false,
        digits: 7,
        scale: 0,
    });
    given
}

/// The message `a` of that size, with its arguments, and NUMBER.
pub fn printed(size: Size) -> Printed {
    let items = vec![
        Item::Function("NUMBER".into()),
        Item::Plain(resource(size.variables)),
    ];
    Printed {
        bundle: Bundle {
            locale: 0,
            isolating: true,
            items,
        },
        messages: vec![("a".into(), arguments(size.arguments))],
    }
}
