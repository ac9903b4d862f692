// The modules of fluent-bundle 0.16.0 but for `types`, compiled straight from
// docs/src as they are published, and what its crate root names. Included by the
// crate roots of `fluent-bundle` and of `fluent-bundle-original`.

#[path = "../../../docs/src/src/args.rs"]
mod args;
#[path = "../../../docs/src/src/builtins.rs"]
pub mod builtins;
#[path = "../../../docs/src/src/bundle.rs"]
pub mod bundle;
#[path = "../../../docs/src/src/concurrent.rs"]
pub mod concurrent;
#[path = "../../../docs/src/src/entry.rs"]
mod entry;
#[path = "../../../docs/src/src/errors.rs"]
mod errors;
#[path = "../../../docs/src/src/memoizer.rs"]
pub mod memoizer;
#[path = "../../../docs/src/src/message.rs"]
mod message;
#[path = "../../../docs/src/src/resolver/mod.rs"]
pub mod resolver;
#[path = "../../../docs/src/src/resource.rs"]
mod resource;

pub use args::FluentArgs;
pub use errors::{EntryKind, FluentError};
pub use message::{FluentAttribute, FluentMessage};
pub use resource::FluentResource;
pub use types::FluentValue;

/// The bundle over the plain memoizer.
pub type FluentBundle<R> = bundle::FluentBundle<R, intl_memoizer::IntlLangMemoizer>;
