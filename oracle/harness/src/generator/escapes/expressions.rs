//! Expressions full of string literals with escapes. The text of a variant begins with
//! its key.

use super::super::source::{Source, Written};
use super::literals::{literal, spelled};
use super::Escapes;
use crate::model::plural_table::CATEGORIES;

/// Texts that selects choose by, most of them with a key.
const KEYS: [&str; 8] = ["one", "other", "dwr", "mor", "w", "A1", "C-c", "f_F"];

impl Written for Escapes {
    /// A backslash is a letter there.
    const AMONG: &'static [&'static str] = &[
        ", ",
        "dŵr ",
        "x",
        "\\u0175",
        "\\",
        "\\x ",
        "0041",
        "\\\\U01F40B",
    ];

    const PLACEABLES: usize = 12;

    /// `a` begins with one to three string literals.
    fn entries(mut source: Source<Self>) -> String {
        let mut first = String::new();
        for _ in 0..1 + source.r.below(3) {
            first += &format!("{{ {} }}", source.string());
        }
        source.all(&first, "{ $s }")
    }

    fn expression(source: &mut Source<Self>, refers: &[&str], depth: usize) -> String {
        match source.r.below(14) {
            5..=7 => {
                let selector = source.selector(refers);
                source.select(&selector, &KEYS, refers, depth)
            }
            8 => {
                let call = source.ordinal();
                source.select(&call, &CATEGORIES, refers, depth)
            }
            9 if !refers.is_empty() => source.reference(refers),
            10 => format!("{{ {} }}", source.string()),
            11 => source.call(),
            12 => source.word(&["$s", "$s", "$n", "$v", "$q"]),
            13 => Self::term(source, "-u"),
            _ => source.string(),
        }
    }

    fn term(source: &mut Source<Self>, name: &str) -> String {
        let string = source.string();
        match source.r.below(6) {
            0 => name.into(),
            1 => format!("{name}({}, s: {string})", source.string()),
            2 => format!("{name}(n: 1, s: {})", source.key()),
            3 => format!("{name}(s: {}, n: {string})", source.key()),
            _ => format!("{name}(s: {string})"),
        }
    }
}

impl Source<'_, Escapes> {
    /// A string literal, most times with escapes.
    fn string(&mut self) -> String {
        let literal = match self.r.one_in(12) {
            true => self.word(&["", "x", "0041", "dŵr"]),
            false => literal(self.r),
        };
        format!("\"{literal}\"")
    }

    /// A key as a string literal with escapes.
    fn key(&mut self) -> String {
        let word = self.word(&KEYS);
        format!("\"{}\"", spelled(self.r, &word))
    }

    /// An expression that is a text, many of them a key; all but variables go to the
    /// workspace.
    fn selector(&mut self, refers: &[&str]) -> String {
        match self.r.below(10) {
            0..=4 => self.key(),
            6 => format!("{{ {} }}", self.key()),
            7 => Escapes::term(self, "-u"),
            8 if !refers.is_empty() => self.reference(refers),
            9 => "$s".into(),
            _ => self.string(),
        }
    }

    /// NUMBER with a type that is spelled with escapes.
    fn ordinal(&mut self) -> String {
        let word = self.word(&["ordinal", "ordinal", "ordinal", "cardinal", "ordinaL"]);
        let word = spelled(self.r, &word);
        let first = self.word(&["$n", "$m", "1", "2", "3", "21"]);
        format!("NUMBER({first}, type: \"{word}\")")
    }

    /// NUMBER with string literals among its arguments, or first of them.
    fn call(&mut self) -> String {
        let (one, two) = (self.string(), self.string());
        match self.r.below(4) {
            0 => format!("NUMBER({one})"),
            1 => format!("NUMBER($n, {one}, {two})"),
            2 => format!("NUMBER($n, {one}, minimumFractionDigits: {two}, currency: {one})"),
            _ => format!("NUMBER($n, x: {one}, minimumFractionDigits: 1)"),
        }
    }

    fn select(&mut self, selector: &str, keys: &[&str], refers: &[&str], depth: usize) -> String {
        let keys: Vec<&&str> = keys.iter().filter(|_| !self.r.one_in(4)).collect();
        let default = match self.r.one_in(15) {
            true => None,
            false => Some(self.r.below(keys.len().max(1))),
        };
        let mut out = format!("{selector} ->");
        for (at, key) in keys.iter().enumerate() {
            let star = if default == Some(at) { "*" } else { "" };
            let more = match depth < 3 && self.r.one_in(8) {
                true => format!(" {}", self.placeable(refers, depth + 1)),
                false => String::new(),
            };
            out += &format!(" {star}[{key}] {key}{more}");
        }
        match keys.is_empty() {
            true => out + " *[o] o",
            false => out,
        }
    }
}
