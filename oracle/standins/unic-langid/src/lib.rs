//! Stand-in for unic-langid: a locale is its language subtag, kept as text.
#![forbid(unsafe_code)]

use std::str::FromStr;

#[derive(Clone, Debug, Default, Eq, Hash, PartialEq)]
pub struct LanguageIdentifier(String);

impl LanguageIdentifier {
    pub fn language(&self) -> &str {
        &self.0
    }
}

impl FromStr for LanguageIdentifier {
    type Err = &'static str;

    fn from_str(text: &str) -> Result<Self, Self::Err> {
        if !text.is_empty() && text.bytes().all(|b| b.is_ascii_lowercase()) {
            Ok(Self(text.to_string()))
        } else {
            Err("not a language")
        }
    }
}
