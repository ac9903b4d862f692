//! A Fluent resolver whose every operation is proved, under the names of
//! fluent-bundle.
//!
//! A bundle is a run of bytes, its store. Each operation on it (a new bundle,
//! an addition, a formatting of a message or of a whole sheet) is a function
//! that is proved to give what a written definition says, for any bytes at all;
//! this crate calls those functions and does the rest: it builds resources,
//! arguments and sheets, lends buffers and lengthens them when an operation says
//! that one is too short, gives each call the [`stack`] that it needs, and reads
//! the lists of errors.
//!
//! ```
//! use weszlagyo::syntax::{select, text, variable, Pattern};
//! use weszlagyo::{FluentArgs, FluentBundle, FluentResource, Locale};
//!
//! let resource = FluentResource::builder()
//!     .message("hello", Pattern::new().text("Hello, ").place(variable("name")).text("!"))
//!     .message(
//!         "whales",
//!         Pattern::from(
//!             select(variable("count"))
//!                 .variant("one", text("one whale"))
//!                 .default("other", Pattern::new().place(variable("count")).text(" whales")),
//!         ),
//!     )
//!     .build()?;
//!
//! let mut bundle = FluentBundle::new(vec![Locale::En]);
//! bundle.set_use_isolating(false);
//! bundle.add_resource(&resource).expect("no id is there twice");
//!
//! let mut args = FluentArgs::new();
//! args.set("name", "Ada");
//! args.set("count", 3);
//! let mut errors = vec![];
//! let message = bundle.get_message("hello").expect("the message is there");
//! let value = message.value().expect("it has a value");
//! assert_eq!(bundle.format_pattern(value, Some(&args), &mut errors), "Hello, Ada!");
//! assert_eq!(bundle.format("whales", None, Some(&args))?.text, "3 whales");
//! assert!(errors.is_empty());
//! # Ok::<(), weszlagyo::Refusal>(())
//! ```
#![deny(unsafe_code)]
#![warn(missing_docs)]

mod args;
mod buffers;
mod bundle;
pub mod bytes;
mod errors;
// the one place that calls the linked functions
#[allow(unsafe_code)]
mod ffi;
pub mod isolation;
mod locale;
pub mod operations;
mod refusals;
mod resource;
mod sheet;
pub mod stack;
pub mod syntax;
mod value;

/// The functions that a bundle can hold.
pub mod builtins {
    use crate::operations::Function;

    /// Fluent's `NUMBER`: a number with options.
    pub const NUMBER: Function = Function::Number;
}

pub use args::FluentArgs;
pub use buffers::Buffers;
pub use bundle::{FluentAttribute, FluentBundle, FluentMessage, FluentPattern, Formatted};
pub use errors::{EntryKind, FluentError, ReferenceKind, ResolverError};
pub use locale::{Locale, UnknownLocale};
pub use operations::Function;
pub use refusals::Refusal;
pub use resource::{FluentResource, ResourceBuilder};
pub use sheet::Sheet;
pub use stack::on_deep_stack;
pub use value::{FluentNumber, FluentValue, NotADecimal};
