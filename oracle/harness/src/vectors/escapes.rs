//! escapes.vec: string literals full of escapes (document 02's Card 5, by which no
//! answer changes). First those worked out by hand and what they read as, every other
//! one in a resource image, too; then images with those that are refused, and every
//! change of some small images; last seeded literals, and images with a changed byte of
//! such a literal.

use super::images::{damage_case, judged, unescape_case, Kind};
use super::{File, Seeded, CASES};
use crate::escapes::{image, refused, told, PLACES};
use crate::generator::literal;
use crate::model::escapes::{Reading, DIGITS, READING};
use crate::random::Random;
use crate::{encode, ftl};

/// Small resources with escapes of all digits, alone and in arguments, and with what
/// looks like one.
const SMALL: [&str; 14] = [
    r#"a = { "\u0175" }"#,
    r#"a = { "\U01F40B" }"#,
    r#"a = { "\\u0041" }"#,
    r#"a = { "\u00eA\"" }"#,
    r#"a = { "\uCDEF\U10FFFF" }"#,
    r#"-t = { "\uabcd\uEFAB" }"#,
    r#"a = { "\u6789\U023456" }"#,
    r#"a = { F("\uD800") }"#,
    r#"a = { F(x: "\uDfFf") }"#,
    r#"a = { -t(x: "\U110000") }"#,
    r#"a = { { "\U00dbFF" } }"#,
    r#"a = { "\u0031" -> *[o] x }"#,
    "a =\n.x = { \"\\u0000\" }",
    r"a = \u0175",
];

pub fn make(seed: u64, cases: usize) -> File {
    make_by(seed, cases, READING)
}

/// The file, with this reading in the place of the model's.
pub fn make_by(seed: u64, cases: usize, reading: Reading) -> File {
    let mut w = Writer {
        file: File::default(),
        reading,
    };
    for (at, told) in told().into_iter().enumerate() {
        let text = reading.text(told.literal.as_bytes());
        assert_eq!(text.as_deref(), Some(told.text), "{}", told.literal);
        w.literal(&told.literal);
        if at % 2 == 0 {
            w.image(told.literal.as_bytes(), at / 2);
        }
    }
    for (at, literal) in refused().into_iter().enumerate() {
        assert_eq!(reading.text(&literal), None, "{literal:02x?}");
        w.image(&literal, at);
    }
    for source in SMALL {
        let image = encode::resource(&ftl::resource(source));
        damage_case(&mut w.file, Kind::Resource, &image);
    }
    let from = seed.wrapping_mul(31_000_003);
    let from = w.until(2000 * cases / CASES, from, Writer::seeded);
    w.until(600 * cases / CASES, from, Writer::changed);
    w.file
}

struct Writer<'f> {
    file: File,
    reading: Reading<'f>,
}

impl Seeded for Writer<'_> {
    fn file(&self) -> &File {
        &self.file
    }
}

impl Writer<'_> {
    /// A literal that this reading takes for well-formed.
    fn literal(&mut self, literal: &str) {
        assert!(self.reading.text(literal.as_bytes()).is_some(), "{literal}");
        unescape_case(&mut self.file, literal);
    }

    fn image(&mut self, literal: &[u8], at: usize) {
        let bytes = image(literal, at % PLACES);
        judged(&mut self.file, Kind::Resource, &bytes);
    }

    fn seeded(&mut self, seed: u64) {
        let literal = literal(&mut Random::new(seed));
        self.literal(&literal);
    }

    /// An image with a byte of its literal changed, most times to a digit or to what
    /// stands beside one.
    fn changed(&mut self, seed: u64) {
        let mut r = Random::new(seed);
        let mut literal = literal(&mut r).into_bytes();
        let at = r.below(literal.len());
        literal[at] = match r.below(4) {
            0 => *r.pick(DIGITS),
            1 => *r.pick(b"/:@G`g\\uU\"\0 "),
            2 => literal[at] ^ 1 << r.below(8),
            _ => r.draw() as u8,
        };
        self.image(&literal, r.below(PLACES));
    }
}
