//! Asking the real Rust: numbers, additions and formatting.

pub mod number;

use crate::case::{Case, Item, Value};
use crate::encode;
use fluent_bundle::types::{FluentNumber, FluentNumberOptions};
use fluent_bundle::{builtins, FluentArgs, FluentBundle, FluentError, FluentResource, FluentValue};
use fluent_syntax::ast::Resource;
use fluent_syntax::notation;
use std::panic::{catch_unwind, AssertUnwindSafe};
use std::sync::Once;

pub type RustBundle = FluentBundle<FluentResource>;

pub fn resource(tree: &Resource<String>) -> FluentResource {
    FluentResource::try_new(notation::write(tree)).expect("the notation is read back")
}

pub fn bundle(from: &crate::case::Bundle) -> RustBundle {
    let mut bundle = number::bundle(from.locale);
    bundle.set_use_isolating(from.isolating);
    for item in &from.items {
        add(&mut bundle, item);
    }
    bundle
}

/// Adds an item and gives the errors that the Rust gives.
pub fn add(bundle: &mut RustBundle, item: &Item) -> Vec<FluentError> {
    match item {
        Item::Plain(tree) => bundle.add_resource(resource(tree)).err(),
        Item::Overriding(tree) => {
            bundle.add_resource_overriding(resource(tree));
            None
        }
        Item::Function(id) => {
            let refused = bundle.add_function(id, builtins::NUMBER);
            refused.err().map(|error| vec![error])
        }
    }
    .unwrap_or_default()
}

pub fn arguments(from: &[(String, Value)]) -> FluentArgs<'_> {
    let mut arguments = FluentArgs::new();
    for (name, value) in from {
        let value = match value {
            Value::Text(text) => FluentValue::from(text.as_str()),
            Value::Number(d) => {
                FluentNumber::new(number::double(*d), FluentNumberOptions::default()).into()
            }
            Value::None => FluentValue::None,
        };
        arguments.set(name.as_str(), value);
    }
    arguments
}

#[derive(Debug, PartialEq)]
pub enum Answer {
    NoMessage,
    NoPattern,
    /// It panics where it has no name for an expression.
    Panic,
    Text {
        text: String,
        /// The errors, as a whole list.
        list: Vec<u8>,
        errors: usize,
        /// Lookups of an id with no entry, counted by the map.
        missed: u32,
    },
}

/// Asks the Rust's `format_pattern`.
pub fn format(case: &Case) -> Answer {
    let bundle = bundle(&case.bundle);
    format_in(&bundle, &case.message, &case.attribute, &case.arguments)
}

/// The same of a bundle that is there.
pub fn format_in(
    bundle: &RustBundle,
    message: &str,
    attribute: &Option<String>,
    given: &[(String, Value)],
) -> Answer {
    let arguments = arguments(given);
    let Some(message) = bundle.get_message(message) else {
        return Answer::NoMessage;
    };
    let pattern = match attribute {
        None => message.value(),
        Some(name) => message.get_attribute(name).map(|a| a.value()),
    };
    let Some(pattern) = pattern else {
        return Answer::NoPattern;
    };
    rustc_hash::take_missed();
    let mut errors = Vec::new();
    let text = quietly(|| {
        let text = bundle.format_pattern(pattern, Some(&arguments), &mut errors);
        text.into_owned()
    });
    match text {
        None => Answer::Panic,
        Some(text) => Answer::Text {
            text,
            list: encode::error_list(&errors),
            errors: errors.len(),
            missed: rustc_hash::take_missed(),
        },
    }
}

/// Runs what may meet the Rust's `unreachable!()`; any other panic goes on.
fn quietly<T>(f: impl FnOnce() -> T) -> Option<T> {
    static HOOK: Once = Once::new();
    HOOK.call_once(|| {
        let usual = std::panic::take_hook();
        std::panic::set_hook(Box::new(move |info| {
            let place = info.location().map_or("", |l| l.file());
            if !place.ends_with("inline_expression.rs") {
                usual(info);
            }
        }));
    });
    match catch_unwind(AssertUnwindSafe(f)) {
        Ok(result) => Some(result),
        Err(panic) => {
            let text = panic.downcast_ref::<&str>();
            assert_eq!(text, Some(&"internal error: entered unreachable code"));
            None
        }
    }
}
