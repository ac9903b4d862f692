//! Stand-in for fluent-langneg: the first wanted locale that is available, or
//! the default one.
#![forbid(unsafe_code)]

use unic_langid::LanguageIdentifier;

#[derive(Clone, Copy, Debug, Eq, PartialEq)]
pub enum NegotiationStrategy {
    Lookup,
}

pub fn negotiate_languages<'a>(
    requested: &[LanguageIdentifier],
    available: &'a [LanguageIdentifier],
    default: Option<&'a LanguageIdentifier>,
    _strategy: NegotiationStrategy,
) -> Vec<&'a LanguageIdentifier> {
    requested
        .iter()
        .find_map(|wanted| available.iter().find(|held| *held == wanted))
        .or(default)
        .into_iter()
        .collect()
}
