//! Operation 4: NUMBER.

use super::fields::{decimal_field, minimum_field, options_field};
use super::values::number;
use crate::bytes::Write;
use crate::model::number::{literal, Number, COUNTS};
use crate::random::Random;
use crate::rust::number as rust;
use crate::vectors::File;
use fluent_bundle::{builtins, FluentArgs, FluentValue};

pub(super) enum First {
    Absent,
    Text(String),
    Number(Number),
    None,
}

pub(super) enum Given {
    Text(String),
    Number(String),
}

pub(super) fn first(r: &mut Random) -> First {
    match r.below(12) {
        0 => First::Absent,
        1 => First::None,
        2 => First::Text("12".into()),
        _ => First::Number(number(r)),
    }
}

const TEXT_OPTIONS: [&str; 5] = [
    "type",
    "style",
    "currency",
    "currencyDisplay",
    "useGrouping",
];

pub(super) fn options(r: &mut Random) -> Vec<(&'static str, Given)> {
    let mut out: Vec<(&'static str, Given)> = Vec::new();
    for _ in 0..r.below(5) {
        let name = match r.below(12) {
            0..=4 => *r.pick(&TEXT_OPTIONS),
            5..=10 => *r.pick(&COUNTS),
            _ => *r.pick(&["Type", "minimumfractiondigits", "x", "currencyDisplayed"]),
        };
        if out.iter().any(|(n, _)| *n == name) {
            continue;
        }
        let wrong = r.one_in(8);
        let text = TEXT_OPTIONS.contains(&name) != wrong;
        out.push((
            name,
            if text {
                Given::Text(word(r))
            } else {
                Given::Number(count(r))
            },
        ));
    }
    out
}

pub fn word(r: &mut Random) -> String {
    r.pick(&[
        "cardinal", "ordinal", "decimal", "currency", "percent", "symbol", "code", "name", "true",
        "false", "EUR", "", "Ordinal", "2",
    ])
    .to_string()
}

pub fn count(r: &mut Random) -> String {
    match r.below(6) {
        0 => r
            .pick(&["-1", "-0", "-20", "0", "0.9", "19.99", "20", "21"])
            .to_string(),
        1 => r
            .pick(&["4294967295", "4294967296", "999999999999999", "19", "18"])
            .to_string(),
        _ => r.below(8).to_string(),
    }
}

pub(super) fn function_case(file: &mut File, first: &First, options: &[(&str, Given)]) {
    let mut case = Vec::new();
    let mut positional = Vec::new();
    match first {
        First::Absent => case.u8(0),
        First::Text(text) => {
            case.u8(1);
            case.str(text);
            positional.push(FluentValue::from(text.clone()));
        }
        First::Number(number) => {
            case.u8(2);
            decimal_field(&mut case, number.value);
            minimum_field(&mut case, number);
            positional.push(rust::of(number).into());
        }
        First::None => {
            case.u8(3);
            positional.push(FluentValue::None);
        }
    }
    case.u8(options.len() as u8);
    let mut named = FluentArgs::new();
    let mut refused = false;
    let mut model = match first {
        First::Number(number) => Some(number.clone()),
        _ => None,
    };
    for (name, value) in options {
        case.str(name);
        match value {
            Given::Text(text) => {
                case.u8(1);
                case.str(text);
                named.set(*name, text.as_str());
                if let Some(m) = &mut model {
                    m.merge_text(name.as_bytes(), text.as_bytes());
                }
            }
            Given::Number(text) => {
                case.u8(2);
                case.str(text);
                named.set(*name, FluentValue::try_number(text));
                if let Some(m) = &mut model {
                    let (value, _) = literal(text.as_bytes()).expect("a literal");
                    refused |= m
                        .merge_number(name.as_bytes(), value)
                        .is_some_and(|n| n > 19);
                }
            }
        }
    }
    if refused {
        // Document 01's limit; the Rust has none.
        case.u8(17);
        file.case(4, case);
        return;
    }
    match (builtins::NUMBER(&positional, &named), &model) {
        (FluentValue::Error, None) => case.u8(0),
        (FluentValue::Number(given), Some(model)) => {
            assert_eq!(given, rust::of(model));
            assert_eq!(given.as_string().as_bytes(), model.text());
            case.u8(1);
            options_field(&mut case, model);
            case.str(given.as_string().as_bytes());
        }
        _ => panic!("NUMBER differs"),
    }
    file.case(4, case);
}
