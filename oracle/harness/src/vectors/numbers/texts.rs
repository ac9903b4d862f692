//! Operations 2 and 3: text and category.

use super::fields::{decimal_field, minimum_field};
use crate::bytes::Write;
use crate::cldr;
use crate::model::number::Number;
use crate::rust::number as rust;
use crate::vectors::File;

pub(super) fn text_case(file: &mut File, number: &Number) {
    let text = rust::of(number).as_string();
    assert_eq!(text.as_bytes(), number.text());
    let mut case = Vec::new();
    decimal_field(&mut case, number.value);
    minimum_field(&mut case, number);
    case.str(text.as_bytes());
    file.case(2, case);
}

pub(in crate::vectors) fn category_case(file: &mut File, locale: u8, number: &Number) {
    let category = rust::category(number, locale);
    let by_model = number.category(locale);
    assert_eq!(rust::CATEGORIES[usize::from(category)], by_model);
    let mut case = vec![locale, u8::from(number.options.ordinal)];
    decimal_field(&mut case, number.value);
    minimum_field(&mut case, number);
    case.u8(category);
    file.case(3, case);
}

pub(super) fn samples(file: &mut File) {
    for rule in &cldr::SAMPLES {
        for (value, minimum) in cldr::expand(rule.samples) {
            let mut number = Number::with_minimum(value, minimum);
            number.options.ordinal = rule.ordinal;
            assert_eq!(number.category(rule.locale), rule.category);
            category_case(file, rule.locale, &number);
        }
    }
}
