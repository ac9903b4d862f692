//! Operations 5 and 6: equality and matching.

use super::fields::{decimal_field, minimum_field, options_field};
use super::values::{decimal, number};
use crate::bytes::Write;
use crate::random::Random;
use crate::rust::number as rust;
use crate::vectors::File;

pub(super) fn equality_case(file: &mut File, r: &mut Random) {
    let base = number(r);
    let mut pair = [base.clone(), base];
    for number in &mut pair {
        if r.one_in(3) {
            number.options.ordinal = true;
        }
        match r.below(12) {
            0 => number.options.style = r.below(3) as u8,
            1 => number.options.currency = Some(b"EUR".to_vec()),
            2 => number.options.display = r.below(3) as u8,
            3 => number.options.grouping = false,
            4 | 5 => number.options.counts[r.below(5)] = Some(r.below(3) as u64),
            6 => number.value = decimal(r),
            7 => number.value.negative = !number.value.negative,
            8 => number.value.digits = 0,
            _ => {}
        }
        if r.one_in(3) && number.value.digits < 100_000_000_000_000 && number.value.scale < 14 {
            // The same value, written longer.
            number.value.digits *= 10;
            number.value.scale += 1;
        }
    }
    let equal = rust::equals(&pair[0], &pair[1]);
    assert_eq!(equal, pair[0].equals(&pair[1]));
    let mut case = Vec::new();
    for number in &pair {
        decimal_field(&mut case, number.value);
        options_field(&mut case, number);
    }
    case.flag(equal);
    file.case(5, case);
}

pub(super) fn match_case(file: &mut File, r: &mut Random) {
    let key = match r.below(8) {
        0 => *r.pick(&[
            "One", "ones", "on", "o", "zero-", "x", "manyy", "Other", "two1",
        ]),
        _ => *r.pick(&rust::CATEGORIES),
    };
    let mut number = number(r);
    number.options.ordinal = r.one_in(2);
    let locale = r.below(4) as u8;
    let matches = rust::matches(key, &number, locale);
    assert_eq!(matches, number.category(locale) == key);
    let mut case = Vec::new();
    case.str(key);
    case.u8(locale);
    decimal_field(&mut case, number.value);
    case.flag(number.options.ordinal);
    minimum_field(&mut case, &number);
    case.flag(matches);
    file.case(6, case);
}
