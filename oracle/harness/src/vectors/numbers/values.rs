//! Numbers, random ones and those at boundaries.

use crate::model::number::{literal, Decimal, Number};
use crate::random::Random;

pub fn decimal(r: &mut Random) -> Decimal {
    let digits = match r.below(6) {
        0 => r.below(130) as u64,
        1 => r.below(10) as u64 * 10u64.pow(r.below(15) as u32),
        2 => r.draw() % 10u64.pow(1 + r.below(15) as u32),
        3 => 10u64.pow(1 + r.below(15) as u32) - 1,
        4 => (10u64.pow(r.below(15) as u32) + r.below(30) as u64) % 1_000_000_000_000_000,
        _ => (r.below(130) as u64) * 10u64.pow(r.below(4) as u32),
    };
    Decimal {
        negative: r.one_in(4),
        digits,
        scale: match r.below(3) {
            0 => 0,
            1 => r.below(4) as u8,
            _ => r.below(15) as u8,
        },
    }
}

pub(super) fn number(r: &mut Random) -> Number {
    let minimum = match r.below(3) {
        0 => None,
        1 => Some(r.below(4) as u64),
        _ => Some(r.below(20) as u64),
    };
    Number::with_minimum(decimal(r), minimum)
}

pub(super) fn number_of(text: &str, minimum: Option<u64>) -> Number {
    let (value, _) = literal(text.as_bytes()).expect("a literal");
    Number::with_minimum(value, minimum)
}

pub(super) fn boundary_numbers() -> Vec<Number> {
    let texts = [
        "0",
        "-0",
        "1",
        "2",
        "3",
        "4",
        "5",
        "6",
        "7",
        "8",
        "9",
        "10",
        "11",
        "12",
        "13",
        "14",
        "15",
        "19",
        "20",
        "21",
        "22",
        "25",
        "99",
        "100",
        "101",
        "102",
        "103",
        "111",
        "112",
        "113",
        "114",
        "122",
        "1000000",
        "999999999999999",
        "-999999999999999",
        "0.1",
        "0.5",
        "1.5",
        "1.9",
        "2.1",
        "0.00000000000001",
        "9.99999999999999",
        "1.00000000000000",
        "1.0",
        "10.0",
        "-1",
        "-1.5",
        "-0.0",
        "100000000000000",
        "0.10",
        "11.0",
        "21.5",
    ];
    let minimums = [None, Some(0), Some(1), Some(19)];
    let each = |text| minimums.map(|m| number_of(text, m));
    texts.into_iter().flat_map(each).collect()
}

/// Whole and not, with every minimum and none: where a dot stands, and where digits
/// follow it.
pub(super) fn telling_numbers() -> Vec<Number> {
    let texts = [
        "0",
        "-0",
        "1",
        "-1",
        "5",
        "-5",
        "7",
        "10",
        "11",
        "20",
        "-20",
        "100",
        "-100",
        "101",
        "1000",
        "5000",
        "1000000",
        "123456789",
        "10000000000000",
        "100000000000000",
        "-100000000000000",
        "123456789012345",
        "999999999999990",
        "999999999999999",
        "-999999999999999",
        // whole, with another scale
        "0.0",
        "-0.0",
        "5.0",
        "-5.0",
        "100.00",
        "5.00000000000000",
        "9.00000000000000",
        // not whole
        "0.5",
        "-0.5",
        "5.5",
        "5.05",
        "-100.5",
        "99.99",
        "0.1",
        "0.00000000000001",
        "-0.00000000000001",
        "9.99999999999999",
        "99999999999999.9",
        "1234567.8901234",
    ];
    let minimums = || std::iter::once(None).chain((0..20).map(Some));
    let each = |text| minimums().map(move |m| number_of(text, m));
    texts.into_iter().flat_map(each).collect()
}
