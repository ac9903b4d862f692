//! The fields Decimal, Minimum and Options.

use crate::bytes::Write;
use crate::model::number::{Decimal, Number};

pub(super) fn decimal_field(case: &mut Vec<u8>, decimal: Decimal) {
    case.flag(decimal.negative);
    case.u64(decimal.digits);
    case.u8(decimal.scale);
}

pub(super) fn minimum_field(case: &mut Vec<u8>, number: &Number) {
    case.flag(number.minimum().is_some());
    case.u8(number.minimum().unwrap_or(0) as u8);
}

pub(super) fn options_field(case: &mut Vec<u8>, number: &Number) {
    let o = &number.options;
    case.flag(o.ordinal);
    case.u8(o.style);
    case.flag(o.currency.is_some());
    case.u8(o.display);
    case.flag(o.grouping);
    for count in o.counts {
        case.flag(count.is_some());
        case.u32(count.unwrap_or(0).min(u32::MAX.into()) as usize);
    }
}
