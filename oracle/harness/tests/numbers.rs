//! CLDR's own samples, and the writer's own comparison of numbers.
#![forbid(unsafe_code)]

use harness::cldr;
use harness::model::number::Number;
use harness::rust::number::{category, CATEGORIES};
use harness::vectors::numbers;

#[test]
fn cldr_samples() {
    let mut count = 0;
    for rule in &cldr::SAMPLES {
        for (value, minimum) in cldr::expand(rule.samples) {
            let mut number = Number::with_minimum(value, minimum);
            number.options.ordinal = rule.ordinal;
            let found = CATEGORIES[usize::from(category(&number, rule.locale))];
            assert_eq!(found, rule.category, "{} {number:?}", rule.locale);
            assert_eq!(number.category(rule.locale), rule.category);
            count += 1;
        }
    }
    assert_eq!(count, 367);
}

/// Making the file compares the model with the Rust on every case.
#[test]
fn other_seeds() {
    for seed in 100..103 {
        assert!(numbers::make(seed, 2400).count() > 20_000);
    }
}

#[test]
#[should_panic]
fn a_wrong_plural_rule_is_noticed() {
    intl_pluralrules::plant_wrong_rule(true);
    numbers::make(100, 240);
}
