//! Expressions full of choices by numbers. The text of a variant begins with its key.

use super::super::made::as_literal;
use super::super::source::{Source, Written};
use super::Plurals;
use crate::model::plural_table::CATEGORIES;
use crate::plurals::numbers::decimal;

/// Keys beside the category words.
const NUMBERS: [&str; 12] = [
    "0", "1", "2", "3", "11", "21", "100", "101", "-1", "1.0", "0.5", "-0",
];

impl Written for Plurals {
    const AMONG: &'static [&'static str] = &[", ", " whales", "x", "é", "one"];

    const PLACEABLES: usize = 16;

    /// `a` begins with one to three choices.
    fn entries(mut source: Source<Self>) -> String {
        let mut first = String::new();
        for _ in 0..1 + source.r.below(3) {
            let selector = source.by_number();
            let select = source.select(&selector, &["b", "-t"], 0);
            first += &format!("{{ {select} }}, ");
        }
        source.all(&first, "")
    }

    fn expression(source: &mut Source<Self>, refers: &[&str], depth: usize) -> String {
        match source.r.below(12) {
            0..=6 => {
                let selector = source.by_number();
                source.select(&selector, refers, depth)
            }
            7 => {
                let selector = source.text(refers);
                source.select(&selector, refers, depth)
            }
            8 if !refers.is_empty() => source.reference(refers),
            9 => {
                let selector = source.by_number();
                format!("{{ {} }}", source.select(&selector, refers, depth))
            }
            10 => format!("NUMBER($n, {})", source.text(refers)),
            _ => source.by_number(),
        }
    }

    fn term(source: &mut Source<Self>, name: &str) -> String {
        let literal = source.literal();
        match source.r.below(6) {
            0 => name.into(),
            1 => format!("{name}({}, n: {literal})", source.call()),
            2 => format!("{name}(n: \"one\", m: {literal})"),
            3 => format!("{name}(n: {literal}, m: {})", source.literal()),
            _ => format!("{name}(n: {literal})"),
        }
    }
}

impl Source<'_, Plurals> {
    /// A selector that is a number, but for some that are not.
    fn by_number(&mut self) -> String {
        match self.r.below(20) {
            0..=6 => self.word(&["$n", "$n", "$m"]),
            7..=9 => self.literal(),
            10 => self.word(&["$s", "$v", "$q", "\"one\""]),
            11 | 12 => {
                let call = self.call();
                format!("NUMBER({call}{})", self.options())
            }
            _ => self.call(),
        }
    }

    /// A call of NUMBER.
    fn call(&mut self) -> String {
        let first = match self.r.below(3) {
            0 => self.literal(),
            _ => self.word(&["$n", "$n", "$m"]),
        };
        format!("NUMBER({first}{})", self.options())
    }

    fn literal(&mut self) -> String {
        as_literal(decimal(self.r))
    }

    /// NUMBER's options, each with a comma before: the type, and a minimum.
    fn options(&mut self) -> String {
        let mut options = Vec::new();
        match self.r.below(8) {
            0..=4 => options.push("type: \"ordinal\"".into()),
            5 => options.push("type: \"cardinal\"".into()),
            _ => {}
        }
        if self.r.one_in(2) {
            let count = match self.r.below(16) {
                _ if self.r.one_in(300) => "20".into(),
                0..=6 => "0".into(),
                7 => self.word(&["0.9", "-1", "-0"]),
                8..=10 => "1".into(),
                11 | 12 => "2".into(),
                13 => self.r.below(20).to_string(),
                _ => self.word(&["\"0\"", "\"1\""]),
            };
            let at = self.r.below(options.len() + 1);
            options.insert(at, format!("minimumFractionDigits: {count}"));
        }
        let options = options.iter().map(|option| format!(", {option}"));
        options.collect()
    }

    /// An expression whose text goes to the workspace, as a selector or an argument:
    /// many of these texts are a key.
    fn text(&mut self, refers: &[&str]) -> String {
        match self.r.below(4) {
            0 if !refers.is_empty() => self.reference(refers),
            1 => Plurals::term(self, "-u"),
            _ => {
                let selector = self.by_number();
                format!("{{ {} }}", self.select(&selector, &[], 3))
            }
        }
    }

    /// The keys: category words in any order, some of them missing; beside them
    /// numbers, another word, or a word once more.
    fn keys(&mut self, selector: &str) -> Vec<String> {
        let mut words: Vec<String> = CATEGORIES.map(String::from).to_vec();
        for at in (1..words.len()).rev() {
            words.swap(at, self.r.below(at + 1));
        }
        words.truncate(match self.r.below(4) {
            0 => 1 + self.r.below(5),
            1 => 5,
            _ => 6,
        });
        let mut more = Vec::new();
        if self.r.one_in(4) {
            more.push(self.word(&NUMBERS));
        }
        if self.r.one_in(12) && selector.starts_with(|c: char| c.is_ascii_digit()) {
            more.push(selector.into());
        }
        if self.r.one_in(12) {
            more.push(self.word(&["x", "ones", "On", "one"]));
        }
        for key in more {
            let at = self.r.below(words.len() + 1);
            words.insert(at, key);
        }
        words
    }

    fn select(&mut self, selector: &str, refers: &[&str], depth: usize) -> String {
        let keys = self.keys(selector);
        let default = match self.r.one_in(15) {
            true => None,
            false => Some(self.r.below(keys.len())),
        };
        let mut out = format!("{selector} ->");
        for (at, key) in keys.iter().enumerate() {
            let star = if default == Some(at) { "*" } else { "" };
            // of equal keys the first one counts
            let again = if keys[..at].contains(key) {
                " again"
            } else {
                ""
            };
            let more = match depth < 3 && self.r.one_in(10) {
                true => format!(" {}", self.placeable(refers, depth + 1)),
                false => String::new(),
            };
            out += &format!(" {star}[{key}] {key}{again}{more}");
        }
        out
    }
}
