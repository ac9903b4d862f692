//! The four locales.

use std::error::Error;
use std::fmt;
use std::str::FromStr;

/// A bundle's locale: its plural categories.
#[derive(Clone, Copy, Debug, Default, PartialEq, Eq, Hash)]
pub enum Locale {
    /// English.
    #[default]
    En,
    /// Danish.
    Da,
    /// Russian.
    Ru,
    /// Welsh.
    Cy,
}

impl Locale {
    /// Its number in the store.
    pub fn number(self) -> u8 {
        match self {
            Self::En => 0,
            Self::Da => 1,
            Self::Ru => 2,
            Self::Cy => 3,
        }
    }

    /// The locale of a number.
    pub fn from_number(number: u8) -> Option<Self> {
        match number {
            0 => Some(Self::En),
            1 => Some(Self::Da),
            2 => Some(Self::Ru),
            3 => Some(Self::Cy),
            _ => None,
        }
    }
}

/// The text names none of the four languages.
#[derive(Clone, Copy, Debug, PartialEq, Eq)]
pub struct UnknownLocale;

impl fmt::Display for UnknownLocale {
    fn fmt(&self, f: &mut fmt::Formatter<'_>) -> fmt::Result {
        f.write_str("the language is none of en, da, ru and cy")
    }
}

impl Error for UnknownLocale {}

impl FromStr for Locale {
    type Err = UnknownLocale;

    /// By the language alone: `en`, `en-GB` and `EN_us` are English.
    fn from_str(text: &str) -> Result<Self, UnknownLocale> {
        let language = text.split(['-', '_']).next().unwrap_or_default();
        match language.to_ascii_lowercase().as_str() {
            "en" => Ok(Self::En),
            "da" => Ok(Self::Da),
            "ru" => Ok(Self::Ru),
            "cy" => Ok(Self::Cy),
            _ => Err(UnknownLocale),
        }
    }
}

impl fmt::Display for Locale {
    fn fmt(&self, f: &mut fmt::Formatter<'_>) -> fmt::Result {
        f.write_str(match self {
            Self::En => "en",
            Self::Da => "da",
            Self::Ru => "ru",
            Self::Cy => "cy",
        })
    }
}
