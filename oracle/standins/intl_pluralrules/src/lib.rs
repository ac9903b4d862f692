//! Stand-in for intl_pluralrules: the conditions of document 01, which are
//! CLDR's for en, da, ru and cy, cardinal and ordinal.
#![forbid(unsafe_code)]
#![allow(non_camel_case_types)]

pub mod operands;

use operands::PluralOperands;
use std::cell::Cell;
use unic_langid::LanguageIdentifier;

#[derive(Clone, Copy, Debug, Eq, Hash, PartialEq)]
pub enum PluralRuleType {
    CARDINAL,
    ORDINAL,
}

#[derive(Clone, Copy, Debug, Eq, Hash, PartialEq)]
pub enum PluralCategory {
    ZERO,
    ONE,
    TWO,
    FEW,
    MANY,
    OTHER,
}

thread_local! {
    static WRONG: Cell<bool> = const { Cell::new(false) };
}

/// For the test that a wrong stand-in is noticed: on this thread, en's `one`
/// holds for i = 2.
pub fn plant_wrong_rule(on: bool) {
    WRONG.set(on);
}

#[derive(Clone, Debug)]
pub struct PluralRules {
    language: String,
    kind: PluralRuleType,
}

impl PluralRules {
    pub fn get_locales(_kind: PluralRuleType) -> Vec<LanguageIdentifier> {
        ["en", "da", "ru", "cy"]
            .iter()
            .map(|language| language.parse().expect("a language"))
            .collect()
    }

    pub fn create(lang: LanguageIdentifier, kind: PluralRuleType) -> Result<Self, &'static str> {
        Ok(Self {
            language: lang.language().to_string(),
            kind,
        })
    }

    pub fn select<N: TryInto<PluralOperands>>(
        &self,
        number: N,
    ) -> Result<PluralCategory, &'static str> {
        let o = number.try_into().map_err(|_| "no operands")?;
        Ok(match self.kind {
            PluralRuleType::CARDINAL => cardinal(&self.language, &o),
            PluralRuleType::ORDINAL => ordinal(&self.language, &o),
        })
    }
}

fn cardinal(language: &str, o: &PluralOperands) -> PluralCategory {
    use PluralCategory::*;
    let (tens, hundreds) = (o.i % 10, o.i % 100);
    match language {
        "en" if o.i == if WRONG.get() { 2 } else { 1 } && o.v == 0 => ONE,
        "da" if o.n == 1.0 || (o.t != 0 && o.i <= 1) => ONE,
        "ru" if o.v == 0 && tens == 1 && hundreds != 11 => ONE,
        "ru" if o.v == 0 && (2..=4).contains(&tens) && !(12..=14).contains(&hundreds) => FEW,
        "ru" if o.v == 0 => MANY,
        "cy" if o.n == 0.0 => ZERO,
        "cy" if o.n == 1.0 => ONE,
        "cy" if o.n == 2.0 => TWO,
        "cy" if o.n == 3.0 => FEW,
        "cy" if o.n == 6.0 => MANY,
        _ => OTHER,
    }
}

fn ordinal(language: &str, o: &PluralOperands) -> PluralCategory {
    use PluralCategory::*;
    // A number with a fraction has no whole remainder and meets no condition.
    if o.t != 0 {
        return OTHER;
    }
    match (language, o.i % 10, o.i % 100, o.i) {
        ("en", _, 11..=13, _) => OTHER,
        ("en", 1, _, _) => ONE,
        ("en", 2, _, _) => TWO,
        ("en", 3, _, _) => FEW,
        ("cy", _, _, 0 | 7 | 8 | 9) => ZERO,
        ("cy", _, _, 1) => ONE,
        ("cy", _, _, 2) => TWO,
        ("cy", _, _, 3 | 4) => FEW,
        ("cy", _, _, 5 | 6) => MANY,
        _ => OTHER,
    }
}
