//! Numbers of the Rust, made from the model's.

use crate::model::number::{Decimal, Number};
use fluent_bundle::resolver::Scope;
use fluent_bundle::types::*;
use fluent_bundle::{FluentBundle, FluentResource, FluentValue};

/// One rounded division of whole numbers that a double holds exactly.
pub fn double(d: Decimal) -> f64 {
    let value = d.digits as f64 / 10f64.powi(d.scale.into());
    if d.negative {
        -value
    } else {
        value
    }
}

pub fn of(number: &Number) -> FluentNumber {
    let o = &number.options;
    let count = |at: usize| o.counts[at].map(|n| n as usize);
    let options = FluentNumberOptions {
        r#type: match o.ordinal {
            false => FluentNumberType::Cardinal,
            true => FluentNumberType::Ordinal,
        },
        style: match o.style {
            0 => FluentNumberStyle::Decimal,
            1 => FluentNumberStyle::Currency,
            _ => FluentNumberStyle::Percent,
        },
        currency: o
            .currency
            .as_ref()
            .map(|c| String::from_utf8(c.clone()).expect("text")),
        currency_display: match o.display {
            0 => FluentNumberCurrencyDisplayStyle::Symbol,
            1 => FluentNumberCurrencyDisplayStyle::Code,
            _ => FluentNumberCurrencyDisplayStyle::Name,
        },
        use_grouping: o.grouping,
        minimum_integer_digits: count(0),
        minimum_fraction_digits: count(1),
        maximum_fraction_digits: count(2),
        minimum_significant_digits: count(3),
        maximum_significant_digits: count(4),
    };
    FluentNumber::new(double(number.value), options)
}

pub const LOCALES: [&str; 4] = ["en", "da", "ru", "cy"];
pub const CATEGORIES: [&str; 6] = ["zero", "one", "two", "few", "many", "other"];

pub fn bundle(locale: u8) -> FluentBundle<FluentResource> {
    let locale = LOCALES[usize::from(locale)].parse().expect("a locale");
    FluentBundle::new(vec![locale])
}

/// The Rust's `matches`, with a key that is text.
pub fn matches(key: &str, number: &Number, locale: u8) -> bool {
    matches_in(&bundle(locale), key, number)
}

fn matches_in(bundle: &FluentBundle<FluentResource>, key: &str, number: &Number) -> bool {
    let scope = Scope::new(bundle, None, None);
    FluentValue::from(key).matches(&of(number).into(), &scope)
}

/// The Rust's `matches`, for two numbers.
pub fn equals(a: &Number, b: &Number) -> bool {
    let bundle = bundle(0);
    let scope = Scope::new(&bundle, None, None);
    FluentValue::from(of(a)).matches(&of(b).into(), &scope)
}

/// The one category that the Rust finds.
pub fn category(number: &Number, locale: u8) -> u8 {
    category_in(&bundle(locale), number)
}

/// The same in a bundle that is there already.
pub fn category_in(bundle: &FluentBundle<FluentResource>, number: &Number) -> u8 {
    let found: Vec<usize> = (0..6)
        .filter(|c| matches_in(bundle, CATEGORIES[*c], number))
        .collect();
    assert_eq!(found.len(), 1, "one category for {number:?}");
    found[0] as u8
}
