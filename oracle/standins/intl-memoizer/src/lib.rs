//! Stand-in for intl-memoizer: makes the formatter anew each time. What it
//! makes depends on the locale and the arguments only, so keeping it could
//! change no result.
#![forbid(unsafe_code)]

use unic_langid::LanguageIdentifier;

pub trait Memoizable {
    type Args;
    type Error;

    fn construct(lang: LanguageIdentifier, args: Self::Args) -> Result<Self, Self::Error>
    where
        Self: Sized;
}

#[derive(Debug)]
pub struct IntlLangMemoizer {
    lang: LanguageIdentifier,
}

impl IntlLangMemoizer {
    pub fn new(lang: LanguageIdentifier) -> Self {
        Self { lang }
    }

    pub fn with_try_get<I, R, U>(&self, args: I::Args, callback: U) -> Result<R, I::Error>
    where
        I: Memoizable,
        U: FnOnce(&I) -> R,
    {
        Ok(callback(&I::construct(self.lang.clone(), args)?))
    }
}

/// The same under the name that the Rust's concurrent.rs wants.
pub mod concurrent {
    use super::{LanguageIdentifier, Memoizable};

    #[derive(Debug)]
    pub struct IntlLangMemoizer(super::IntlLangMemoizer);

    impl IntlLangMemoizer {
        pub fn new(lang: LanguageIdentifier) -> Self {
            Self(super::IntlLangMemoizer::new(lang))
        }

        pub fn with_try_get<I, R, U>(&self, args: I::Args, callback: U) -> Result<R, I::Error>
        where
            I: Memoizable,
            U: FnOnce(&I) -> R,
        {
            self.0.with_try_get(args, callback)
        }
    }
}
