//! Decimals, number text, NUMBER's options and plural categories, after
//! document 01 and document 02's Card 3, and with whole numbers only.

use super::plural_table::Choices;

/// digits over 10^scale, with a sign; -0 is one.
#[derive(Clone, Copy, Debug, PartialEq)]
pub struct Decimal {
    pub negative: bool,
    pub digits: u64,
    pub scale: u8,
}

impl Decimal {
    /// The same value with the fewest fraction digits.
    pub fn shortest(self) -> Self {
        let mut d = self;
        while d.scale > 0 && d.digits.is_multiple_of(10) {
            d.digits /= 10;
            d.scale -= 1;
        }
        d
    }

    pub fn whole(self) -> u64 {
        self.digits / 10u64.pow(self.scale.into())
    }

    fn equals(self, other: Self) -> bool {
        let (a, b) = (self.shortest(), other.shortest());
        (a.digits, a.scale) == (b.digits, b.scale) && (a.negative == b.negative || a.digits == 0)
    }
}

/// Document 01's number literal: the decimal as written, and the fraction
/// length if there is a dot. None if it is no number literal.
pub fn literal(text: &[u8]) -> Option<(Decimal, Option<u64>)> {
    let (negative, rest) = match text.strip_prefix(b"-") {
        Some(rest) => (true, rest),
        None => (false, text),
    };
    let dot = rest.iter().position(|b| *b == b'.');
    let (whole, fraction) = match dot {
        Some(at) => (&rest[..at], Some(&rest[at + 1..])),
        None => (rest, None),
    };
    let scale = fraction.map_or(0, <[u8]>::len);
    if whole.is_empty() || fraction.is_some_and(<[u8]>::is_empty) || whole.len() + scale > 15 {
        return None;
    }
    let mut digits = 0;
    for b in whole.iter().chain(fraction.unwrap_or_default()) {
        if !b.is_ascii_digit() {
            return None;
        }
        digits = digits * 10 + u64::from(b - b'0');
    }
    let decimal = Decimal {
        negative,
        digits,
        scale: scale as u8,
    };
    Some((decimal, fraction.map(|f| f.len() as u64)))
}

/// The five digit counts, in the order of the Rust's options.
pub const COUNTS: [&str; 5] = [
    "minimumIntegerDigits",
    "minimumFractionDigits",
    "maximumFractionDigits",
    "minimumSignificantDigits",
    "maximumSignificantDigits",
];
pub const MINIMUM_FRACTION: usize = 1;

/// NUMBER's ten options.
#[derive(Clone, Debug, PartialEq)]
pub struct Options {
    pub ordinal: bool,
    /// 0 decimal, 1 currency, 2 percent.
    pub style: u8,
    pub currency: Option<Vec<u8>>,
    /// 0 symbol, 1 code, 2 name.
    pub display: u8,
    pub grouping: bool,
    pub counts: [Option<u64>; 5],
}

#[derive(Clone, Debug)]
pub struct Number {
    pub value: Decimal,
    pub options: Options,
}

impl Number {
    pub fn plain(value: Decimal) -> Self {
        Self::with_minimum(value, None)
    }

    pub fn with_minimum(value: Decimal, minimum: Option<u64>) -> Self {
        let mut counts = [None; 5];
        counts[MINIMUM_FRACTION] = minimum;
        let options = Options {
            ordinal: false,
            style: 0,
            currency: None,
            display: 0,
            grouping: true,
            counts,
        };
        Self { value, options }
    }

    /// A number literal that the records' rules have accepted.
    pub fn of_literal(text: &[u8]) -> Self {
        let (value, minimum) = literal(text).expect("a number literal");
        Self::with_minimum(value, minimum)
    }

    /// Merges one named option whose value is text.
    pub fn merge_text(&mut self, name: &[u8], value: &[u8]) {
        let word = |words: [&[u8]; 2]| match value {
            v if v == words[0] => 1,
            v if v == words[1] => 2,
            _ => 0,
        };
        match name {
            b"type" => self.options.ordinal = value == b"ordinal",
            b"style" => self.options.style = word([b"currency", b"percent"]),
            b"currency" => self.options.currency = Some(value.to_vec()),
            b"currencyDisplay" => self.options.display = word([b"code", b"name"]),
            b"useGrouping" => self.options.grouping = value != b"false",
            _ => {}
        }
    }

    /// Merges one named option whose value is a number; gives the new minimum
    /// of fraction digits if it was that.
    pub fn merge_number(&mut self, name: &[u8], value: Decimal) -> Option<u64> {
        let at = COUNTS.iter().position(|c| c.as_bytes() == name)?;
        let count = if value.negative { 0 } else { value.whole() };
        self.options.counts[at] = Some(count);
        (at == MINIMUM_FRACTION).then_some(count)
    }

    pub fn minimum(&self) -> Option<u64> {
        self.options.counts[MINIMUM_FRACTION]
    }

    /// The shortest decimal, with zeros added up to the minimum. A dot stands only
    /// where digits follow it (document 02's Card 3).
    pub fn text(&self) -> Vec<u8> {
        let d = self.value.shortest();
        let scale = usize::from(d.scale);
        let digits = format!("{:0>width$}", d.digits, width = scale + 1);
        let (whole, fraction) = digits.split_at(digits.len() - scale);
        let minimum = self.minimum().unwrap_or(0) as usize;
        let mut text = String::new();
        if d.negative {
            text.push('-');
        }
        text.push_str(whole);
        if scale > 0 || minimum > 0 {
            text.push('.');
            text.push_str(fraction);
            text.push_str(&"0".repeat(minimum.saturating_sub(scale)));
        }
        text.into_bytes()
    }

    /// Whether the original Rust ends the text with a dot, which Card 3 leaves out:
    /// no fraction, and a minimum of 0.
    pub fn loses_dot(&self) -> bool {
        self.value.shortest().scale == 0 && self.minimum() == Some(0)
    }

    pub fn equals(&self, other: &Self) -> bool {
        self.value.equals(other.value) && self.options == other.options
    }

    /// The category in locale 0 en, 1 da, 2 ru, 3 cy.
    pub fn category(&self, locale: u8) -> &'static str {
        let d = self.value.shortest();
        let i = d.whole();
        let v = self.minimum().unwrap_or(0).max(d.scale.into());
        let whole = d.scale == 0;
        let n = |m: u64| whole && i == m;
        match (locale, self.options.ordinal) {
            (0, false) if i == 1 && v == 0 => "one",
            (1, false) if n(1) || (!whole && i <= 1) => "one",
            (2, false) if v == 0 => match (i % 10, i % 100) {
                (1, h) if h != 11 => "one",
                (2..=4, h) if !(12..=14).contains(&h) => "few",
                _ => "many",
            },
            (3, false) if whole => match i {
                0 => "zero",
                1 => "one",
                2 => "two",
                3 => "few",
                6 => "many",
                _ => "other",
            },
            (0, true) if whole => match (i % 10, i % 100) {
                (1, h) if h != 11 => "one",
                (2, h) if h != 12 => "two",
                (3, h) if h != 13 => "few",
                _ => "other",
            },
            (3, true) if whole => match i {
                0 | 7 | 8 | 9 => "zero",
                1 => "one",
                2 => "two",
                3 | 4 => "few",
                5 | 6 => "many",
                _ => "other",
            },
            _ => "other",
        }
    }
}

/// The numbers that a formatting writes and chooses by.
#[derive(Clone, Copy, Debug, Default, PartialEq, Eq)]
pub struct Seen {
    /// Texts of numbers, written to the text or to the workspace.
    pub texts: usize,
    /// Those that the original Rust ends with a dot.
    pub texts_losing_dot: usize,
    /// Selectors that are numbers.
    pub selectors: usize,
    /// Those whose text the original would end with a dot.
    pub selectors_losing_dot: usize,
    /// Those whose category is asked.
    pub choices: Choices,
}

impl Seen {
    pub(super) fn written(&mut self, number: &Number) {
        self.texts += 1;
        self.texts_losing_dot += usize::from(number.loses_dot());
    }

    pub(super) fn chosen_by(&mut self, number: &Number) {
        self.selectors += 1;
        self.selectors_losing_dot += usize::from(number.loses_dot());
    }

    /// Those of another formatting, too.
    pub fn add(&mut self, other: Self) {
        self.texts += other.texts;
        self.texts_losing_dot += other.texts_losing_dot;
        self.selectors += other.selectors;
        self.selectors_losing_dot += other.selectors_losing_dot;
        self.choices.add(&other.choices);
    }
}
