//! Messages, terms and expressions full of numbers.

use super::super::made::as_literal;
use super::super::source::{Source, Written};
use super::Fractions;
use crate::vectors::numbers::decimal;

const WHOLE: [&str; 20] = [
    "5",
    "1",
    "0",
    "-0",
    "2",
    "3",
    "6",
    "-5",
    "-1",
    "10",
    "11",
    "21",
    "100",
    "-100",
    "007",
    "1000",
    "123456",
    "100000000000000",
    "999999999999999",
    "-999999999999999",
];

/// Whole, with zeros behind the dot.
const ZEROS: [&str; 8] = [
    "5.0",
    "1.0",
    "-0.0",
    "0.0",
    "100.00",
    "21.000",
    "-5.0",
    "5.00000000000000",
];

const FRACTIONS: [&str; 10] = [
    "0.5",
    "5.5",
    "1.5",
    "-2.5",
    "5.50",
    "100.01",
    "0.00000000000001",
    "-0.00000000000001",
    "9.99999999999999",
    "99999999999999.9",
];

/// Minimums that are 0, by other words.
const ZERO: [&str; 10] = [
    "0.9",
    "0.5",
    "0.0",
    "-1",
    "-0",
    "-0.5",
    "-20",
    "00",
    "0.99999999999999",
    "-999999999999999",
];

/// What a select's variants have as keys.
const KEYS: [&str; 16] = [
    "one", "one", "one", "other", "two", "few", "many", "zero", "1", "5", "1.0", "0", "x5", "x",
    "w5", "o",
];

impl Written for Fractions {
    const AMONG: &'static [&'static str] =
        &[".", "x", "x ", " whales", "..", "w", ".5", ", ", "5", "é"];

    const PLACEABLES: usize = 6;

    /// All entries of a bundle; in one of ten `a` has about 100 placeables.
    fn entries(mut source: Source<Self>) -> String {
        let mut a = Self::pattern(&mut source, &["b", "c", "b.x", "-t", "-u", "zz"]);
        if !source.r.one_in(3) {
            let call = source.call(0);
            a = match source.r.one_in(2) {
                true => format!("{{ {call} }}{a}"),
                false => format!("{a}{{ {call} }}"),
            };
        }
        let mut fan = String::new();
        if source.r.one_in(10) {
            a = match source.r.below(6) {
                0 => format!("{a}{{ g }}"),
                1 => format!("{{ g }}{a}"),
                2 => format!("x {{ NUMBER($n, g, minimumFractionDigits: 0) }}{a}"),
                3 => "{ g -> [x] y *[o] { g } }".into(),
                4 => format!("{a}{{ {{ g }} }}"),
                _ => format!("x {{ 5 -> *[o] {{ g }} }}{a}"),
            };
            let simple = match source.r.below(3) {
                0 => "{ NUMBER(5, minimumFractionDigits: 0) }",
                1 => "{ NUMBER($n, minimumFractionDigits: 0) }",
                _ => "{ $n }",
            };
            let outer = "{ h }".repeat(8 + source.r.below(3));
            let inner = simple.repeat(9);
            fan = format!("\ng = {outer}\nh = {inner}");
        }
        let x = Self::pattern(&mut source, &["b", "c", "-t"]);
        let b = Self::pattern(&mut source, &["c", "-t", "-u"]);
        let b_x = source.call(0);
        let c = source.third();
        let t = Self::pattern(&mut source, &["-u"]);
        let u = Self::pattern(&mut source, &[]);
        format!("a = {a}\n.x = {x}\nb = {b}\n.x = {{ {b_x} }}\nc = {c}\n-t = {t}\n-u = {u}{fan}")
    }

    /// Some begin with text.
    fn pattern(source: &mut Source<Self>, refers: &[&str]) -> String {
        let count = 1 + source.r.below(4);
        // a blank alone is no pattern
        let mut out = match source.r.one_in(4) {
            true => source.word(&["x", ".", "w"]),
            false => source.placeable(refers, 0),
        };
        for _ in 1..count {
            out += &match source.r.one_in(3) {
                true => source.word(Self::AMONG),
                false => source.placeable(refers, 0),
            };
        }
        out
    }

    fn expression(source: &mut Source<Self>, refers: &[&str], depth: usize) -> String {
        match source.r.below(20) {
            0..=7 => source.call(0),
            8 => source.number(),
            9 => format!("{{ {} }}", source.call(0)),
            10..=12 if depth < 3 => {
                let selector = source.call(0);
                source.select(&selector, refers, depth)
            }
            13 | 14 if depth < 3 => {
                let selector = source.text(refers);
                source.select(&selector, refers, depth)
            }
            15 if !refers.is_empty() => source.reference(refers),
            16 => source.any_term(),
            17 => format!("F({})", source.text(refers)),
            18 => source.word(&["\".\"", "\"5\"", "\"\\u002E\"", "\"\""]),
            _ => source.word(&["$n", "$n", "$m", "$s", "$q"]),
        }
    }

    /// Whichever was to be referred to, any of them comes.
    fn term(source: &mut Source<Self>, _: &str) -> String {
        source.any_term()
    }
}

impl Source<'_, Fractions> {
    /// An expression whose text goes to the workspace, as a selector or an argument.
    fn text(&mut self, refers: &[&str]) -> String {
        match self.r.below(3) {
            0 if !refers.is_empty() => self.reference(refers),
            1 => self.any_term(),
            _ => format!("{{ {} }}", self.call(0)),
        }
    }

    /// A term, which may be missing, most times with arguments of its own.
    fn any_term(&mut self) -> String {
        let name = self.word(&["-u", "-u", "-t", "-zz"]);
        let literal = self.literal();
        match self.r.below(6) {
            0 => name,
            1 => format!("{name}({{ {} }}, n: {literal})", self.call(1)),
            2 => format!("{name}(n: \"5\", m: {literal})"),
            _ => format!("{name}(n: {literal})"),
        }
    }

    fn select(&mut self, selector: &str, refers: &[&str], depth: usize) -> String {
        let count = 1 + self.r.below(4);
        let default = !self.r.one_in(12);
        let mut out = format!("{selector} ->");
        for at in 0..count {
            let star = if default && at + 1 == count { "*" } else { "" };
            let key = self.word(&KEYS);
            let value = match self.r.below(3) {
                0 => self.word(&["x", "y.", "5", "one"]),
                1 => self.placeable(refers, depth + 1),
                _ => {
                    let end = self.word(&["", ".", " y"]);
                    format!("x{}{end}", self.placeable(refers, depth + 1))
                }
            };
            out += &format!(" {star}[{key}] {value}");
        }
        out
    }

    /// A call of NUMBER.
    fn call(&mut self, depth: usize) -> String {
        let mut given = vec![match self.r.below(14) {
            0 | 1 if depth < 3 => self.call(depth + 1),
            2 => self.word(&["$s", "$v", "$q", "\"5\"", "{ 5 }"]),
            _ => self.number(),
        }];
        if self.r.one_in(8) {
            given.push(match self.r.below(3) {
                0 if depth < 3 => format!("{{ {} }}", self.call(depth + 1)),
                1 => "\"\\u0035\"".into(),
                _ => "$q".into(),
            });
        }
        let mut options: Vec<String> = self.minimum().into_iter().collect();
        if self.r.one_in(4) {
            let option = self.word(&[
                "type: \"ordinal\"",
                "type: \"cardinal\"",
                "style: \"percent\"",
                "currency: \"EUR\"",
                "useGrouping: \"false\"",
                "maximumFractionDigits: 0",
                "minimumIntegerDigits: 3",
                "minimumSignificantDigits: 0",
            ]);
            let at = self.r.below(options.len() + 1);
            options.insert(at, option);
        }
        given.extend(options);
        format!("NUMBER({})", given.join(", "))
    }

    /// A literal, or a variable that is a number.
    fn number(&mut self) -> String {
        match self.r.below(3) {
            0 => self.word(&["$n", "$n", "$m"]),
            _ => self.literal(),
        }
    }

    fn literal(&mut self) -> String {
        match self.r.below(10) {
            0..=4 => self.word(&WHOLE),
            5 | 6 => self.word(&ZEROS),
            7 | 8 => self.word(&FRACTIONS),
            _ => as_literal(decimal(self.r)),
        }
    }

    /// The option for a minimum, most times of 0.
    fn minimum(&mut self) -> Option<String> {
        let count = match self.r.below(40) {
            _ if self.r.one_in(150) => self.word(&["20", "20.0", "999999999999999"]),
            0..=20 => "0".into(),
            21..=28 => self.word(&ZERO),
            29..=31 => (1 + self.r.below(19)).to_string(),
            32 => self.word(&["1.9", "19.99", "1", "2"]),
            33 => self.word(&["\"0\"", "\"\\u0030\"", "\"2\""]),
            34 => return Some("MinimumFractionDigits: 0".into()),
            _ => return None,
        };
        Some(format!("minimumFractionDigits: {count}"))
    }
}
