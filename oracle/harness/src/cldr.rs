//! CLDR's own samples for the four locales, carried over from CLDR 41
//! (Debian's unicode-cldr-core 41-0.1, common/supplemental/plurals.xml and
//! ordinals.xml). `a~b` stands for all numbers from a to b, in steps of the last
//! digit. The trailing `…` of a list is left off. In CLDR 41 none of these rules
//! has samples with a c or e exponent, so none had to be left out.

use crate::model::number::{literal, Decimal};

pub struct Samples {
    pub locale: u8,
    pub ordinal: bool,
    pub category: &'static str,
    pub samples: &'static str,
}

const fn samples(
    locale: u8,
    ordinal: bool,
    category: &'static str,
    samples: &'static str,
) -> Samples {
    Samples {
        locale,
        ordinal,
        category,
        samples,
    }
}

#[rustfmt::skip]
pub const SAMPLES: [Samples; 26] = [
    // en, cardinal
    samples(0, false, "one", "1"),
    samples(0, false, "other", "0, 2~16, 100, 1000, 10000, 100000, 1000000, 0.0~1.5, 10.0, 100.0, 1000.0, 10000.0, 100000.0, 1000000.0"),
    // da, cardinal
    samples(1, false, "one", "1, 0.1~1.6"),
    samples(1, false, "other", "0, 2~16, 100, 1000, 10000, 100000, 1000000, 0.0, 2.0~3.4, 10.0, 100.0, 1000.0, 10000.0, 100000.0, 1000000.0"),
    // ru, cardinal
    samples(2, false, "one", "1, 21, 31, 41, 51, 61, 71, 81, 101, 1001"),
    samples(2, false, "few", "2~4, 22~24, 32~34, 42~44, 52~54, 62, 102, 1002"),
    samples(2, false, "many", "0, 5~19, 100, 1000, 10000, 100000, 1000000"),
    samples(2, false, "other", "0.0~1.5, 10.0, 100.0, 1000.0, 10000.0, 100000.0, 1000000.0"),
    // cy, cardinal
    samples(3, false, "zero", "0, 0.0, 0.00, 0.000, 0.0000"),
    samples(3, false, "one", "1, 1.0, 1.00, 1.000, 1.0000"),
    samples(3, false, "two", "2, 2.0, 2.00, 2.000, 2.0000"),
    samples(3, false, "few", "3, 3.0, 3.00, 3.000, 3.0000"),
    samples(3, false, "many", "6, 6.0, 6.00, 6.000, 6.0000"),
    samples(3, false, "other", "4, 5, 7~20, 100, 1000, 10000, 100000, 1000000, 0.1~0.9, 1.1~1.7, 10.0, 100.0, 1000.0, 10000.0, 100000.0, 1000000.0"),
    // en, ordinal
    samples(0, true, "one", "1, 21, 31, 41, 51, 61, 71, 81, 101, 1001"),
    samples(0, true, "two", "2, 22, 32, 42, 52, 62, 72, 82, 102, 1002"),
    samples(0, true, "few", "3, 23, 33, 43, 53, 63, 73, 83, 103, 1003"),
    samples(0, true, "other", "0, 4~18, 100, 1000, 10000, 100000, 1000000"),
    // da and ru, ordinal
    samples(1, true, "other", "0~15, 100, 1000, 10000, 100000, 1000000"),
    samples(2, true, "other", "0~15, 100, 1000, 10000, 100000, 1000000"),
    // cy, ordinal
    samples(3, true, "zero", "0, 7~9"),
    samples(3, true, "one", "1"),
    samples(3, true, "two", "2"),
    samples(3, true, "few", "3, 4"),
    samples(3, true, "many", "5, 6"),
    samples(3, true, "other", "10~25, 100, 1000, 10000, 100000, 1000000"),
];

/// Each sample as a decimal with its written fraction length.
pub fn expand(list: &str) -> Vec<(Decimal, Option<u64>)> {
    let mut out = Vec::new();
    for piece in list.split(", ") {
        let (from, to) = piece.split_once('~').unwrap_or((piece, piece));
        let (from, minimum) = literal(from.as_bytes()).expect("a sample");
        let (to, _) = literal(to.as_bytes()).expect("a sample");
        for digits in from.digits..=to.digits {
            out.push((Decimal { digits, ..from }, minimum));
        }
    }
    out
}
