//! The Rust that the runs ask, which takes a final dot off the text of a number,
//! held to the published one, which does not: nothing else differs.
#![forbid(unsafe_code)]

use harness::model::number::{Decimal, Number};
use harness::random::Random;
use harness::rust::number::{double, CATEGORIES, LOCALES};
use harness::sentences::sentences;
use harness::vectors::numbers::decimal;
use std::collections::BTreeSet;

/// One of the two, and what is asked of it.
macro_rules! side {
    ($name:ident, $bundle:ident) => {
        mod $name {
            use super::*;
            use $bundle::resolver::Scope;
            use $bundle::types::{FluentNumber, FluentNumberOptions, FluentNumberType};
            use $bundle::{builtins, FluentArgs, FluentBundle, FluentResource, FluentValue};

            /// A bundle for each locale.
            pub struct Side([FluentBundle<FluentResource>; 4]);

            /// A number with these options, and no others.
            fn of(number: &Number, ordinal: bool) -> FluentNumber {
                let options = FluentNumberOptions {
                    r#type: match ordinal {
                        false => FluentNumberType::Cardinal,
                        true => FluentNumberType::Ordinal,
                    },
                    minimum_fraction_digits: number.minimum().map(|n| n as usize),
                    ..Default::default()
                };
                FluentNumber::new(double(number.value), options)
            }

            impl Side {
                pub fn new() -> Self {
                    Self(
                        LOCALES.map(|locale| {
                            FluentBundle::new(vec![locale.parse().expect("a locale")])
                        }),
                    )
                }

                /// Its text, and all that there is of the number after that.
                pub fn text(&self, number: &Number) -> (String, String) {
                    let number = of(number, false);
                    let text = number.as_string().into_owned();
                    (text, format!("{number:?}"))
                }

                /// Which of the six words it matches, by locale and type.
                pub fn matched(&self, number: &Number) -> Vec<bool> {
                    let mut all = Vec::new();
                    for bundle in &self.0 {
                        let scope = Scope::new(bundle, None, None);
                        for ordinal in [false, true] {
                            let number = FluentValue::from(of(number, ordinal));
                            let words = CATEGORIES.iter();
                            let said =
                                words.map(|w| FluentValue::from(*w).matches(&number, &scope));
                            all.extend(said);
                        }
                    }
                    all
                }

                /// Whether two are equal, as values and as a key and a selector.
                pub fn equal(&self, a: &Number, b: &Number) -> [bool; 2] {
                    let scope = Scope::new(&self.0[0], None, None);
                    let [a, b] = [of(a, false), of(b, false)];
                    let same = a == b;
                    [same, FluentValue::from(a).matches(&b.into(), &scope)]
                }

                /// NUMBER with this minimum merged: the number that it gives, and its
                /// text.
                pub fn merged(&self, number: &Number, minimum: &str) -> (String, String) {
                    let mut named = FluentArgs::new();
                    named.set("minimumFractionDigits", FluentValue::try_number(minimum));
                    match builtins::NUMBER(&[of(number, false).into()], &named) {
                        FluentValue::Number(given) => {
                            (given.as_string().into_owned(), format!("{given:?}"))
                        }
                        other => panic!("{other:?} is no number"),
                    }
                }

                /// The text of a message `a`, with NUMBER and isolation.
                pub fn message(&self, resource: String) -> String {
                    let resource = FluentResource::try_new(resource).expect("the notation");
                    let mut bundle = FluentBundle::new(vec!["en".parse().expect("a locale")]);
                    bundle
                        .add_function("NUMBER", builtins::NUMBER)
                        .expect("it is new");
                    bundle.add_resource(resource).expect("they are new");
                    let message = bundle.get_message("a").expect("it is there");
                    let pattern = message.value().expect("it has a value");
                    let text = bundle.format_pattern(pattern, None, &mut Vec::new());
                    text.into_owned()
                }
            }
        }
    };
}

side!(copy, fluent_bundle);
side!(original, fluent_bundle_original);

const DIGITS: [u64; 30] = [
    0,
    1,
    2,
    3,
    5,
    6,
    9,
    10,
    11,
    12,
    20,
    21,
    50,
    99,
    100,
    101,
    110,
    111,
    112,
    250,
    999,
    1000,
    5000,
    1_000_000,
    10_000_000_000_000,
    12_345_678_901_234,
    99_999_999_999_999,
    100_000_000_000_000,
    500_000_000_000_000,
    999_999_999_999_999,
];

/// No minimum, and every one that document 01 lets through.
fn minimums() -> impl Iterator<Item = Option<u64>> {
    std::iter::once(None).chain((0..20).map(Some))
}

/// Those at boundaries: each with both signs, every scale, every minimum.
fn boundary() -> Vec<Number> {
    let mut all = Vec::new();
    for digits in DIGITS {
        for scale in 0..15 {
            for negative in [false, true] {
                let value = Decimal {
                    negative,
                    digits,
                    scale,
                };
                all.extend(minimums().map(|m| Number::with_minimum(value, m)));
            }
        }
    }
    all
}

/// Generated ones, each with some minimum, most often none or few.
fn generated(count: usize) -> Vec<Number> {
    let mut r = Random::new(0x3D07);
    let one = |r: &mut Random| {
        let minimum = match r.below(4) {
            0 => None,
            1 => Some(0),
            2 => Some(r.below(4) as u64),
            _ => Some(r.below(20) as u64),
        };
        Number::with_minimum(decimal(r), minimum)
    };
    (0..count).map(|_| one(&mut r)).collect()
}

fn all() -> Vec<Number> {
    let mut all = boundary();
    all.extend(generated(8_000));
    assert!(all.len() > 20_000);
    all
}

/// The one difference, on every number: the text without a final dot.
#[test]
fn texts_differ_in_a_final_dot() {
    let (copy, original) = (copy::Side::new(), original::Side::new());
    let (mut lost, mut kept) = (0, 0);
    let mut texts = BTreeSet::new();
    for number in all() {
        let (text, held) = copy.text(&number);
        let (published, published_held) = original.text(&number);
        assert_eq!(held, published_held);
        assert_eq!(text.as_bytes(), number.text(), "{number:?}");
        match published.strip_suffix('.') {
            Some(without) => {
                assert_eq!(text, without);
                assert_eq!(number.minimum(), Some(0), "{number:?}");
                assert_eq!(number.value.shortest().scale, 0, "{number:?}");
                assert!(number.loses_dot() && !text.contains('.'));
                texts.insert(text);
                lost += 1;
            }
            None => {
                assert_eq!(text, published);
                assert!(!number.loses_dot() && !text.ends_with('.'));
                kept += 1;
            }
        }
    }
    assert!(lost > 1_500 && kept > 20_000, "{lost} lost, {kept} kept");
    // zero and minus zero, both signs, zeros at the end, the most digits
    for text in ["0", "-0", "5", "-5", "100", "999999999999999"] {
        assert!(texts.contains(text), "{text}");
    }
}

/// Category by all six words, in four locales and of both types.
#[test]
fn categories_are_the_same() {
    let (copy, original) = (copy::Side::new(), original::Side::new());
    let mut seen = [0; 48];
    let mut losing = 0;
    for number in all() {
        let matched = copy.matched(&number);
        assert_eq!(matched, original.matched(&number), "{number:?}");
        for (sum, said) in seen.iter_mut().zip(&matched) {
            *sum += usize::from(*said);
        }
        losing += usize::from(number.loses_dot());
    }
    // every word in the locale and type that has it: en 2, 4; da 2, 1; ru 4, 1; cy 6, 6
    let met = seen.iter().filter(|n| **n > 0).count();
    assert_eq!(met, 26, "{seen:?}");
    assert!(losing > 1_500);
}

/// Equality, with itself, the next one, and the same with other minimums.
#[test]
fn equality_is_the_same() {
    let (copy, original) = (copy::Side::new(), original::Side::new());
    let (mut equal, mut unequal) = (0, 0);
    let mut compare = |a: &Number, b: &Number| {
        let said = copy.equal(a, b);
        assert_eq!(said, original.equal(a, b), "{a:?} {b:?}");
        equal += usize::from(said[1]);
        unequal += usize::from(!said[1]);
    };
    let all = all();
    for (number, next) in all.iter().zip(&all[1..]) {
        compare(number, number);
        compare(number, next);
        for minimum in [None, Some(0)] {
            compare(number, &Number::with_minimum(number.value, minimum));
        }
        let mut other = number.clone();
        other.value.negative ^= true;
        compare(number, &other);
    }
    assert!(equal > 20_000 && unequal > 20_000, "{equal}, {unequal}");
}

/// The options that NUMBER merges.
#[test]
fn options_are_the_same() {
    let (copy, original) = (copy::Side::new(), original::Side::new());
    let mut lost = 0;
    let words = ["0", "0.9", "-1", "-0", "-999999999999999", "1", "1.9", "19"];
    for (at, number) in all().iter().enumerate() {
        let word = words[at % words.len()];
        let (text, held) = copy.merged(number, word);
        let (published, published_held) = original.merged(number, word);
        assert_eq!(held, published_held);
        assert_eq!(text, published.strip_suffix('.').unwrap_or(&published));
        lost += usize::from(text != published);
    }
    assert!(lost > 1_500, "{lost}");
}

/// What build.rs replaced is what is compiled.
#[test]
fn five_with_a_minimum_of_0() {
    let value = Decimal {
        negative: false,
        digits: 5,
        scale: 0,
    };
    let five = Number::with_minimum(value, Some(0));
    assert_eq!(copy::Side::new().text(&five).0, "5");
    assert_eq!(original::Side::new().text(&five).0, "5.");
    assert_eq!(five.text(), b"5");
}

/// In a message: document 01's sentence, as it was and as it is.
#[test]
fn the_sentence() {
    let all = sentences();
    let s7 = all.iter().find(|s| s.id == "S7").expect("S7");
    let [_, harness::case::Item::Plain(tree)] = &s7.case.bundle.items[..] else {
        panic!("NUMBER and one resource")
    };
    let written = fluent_syntax::notation::write(tree);
    assert_eq!(copy::Side::new().message(written.clone()), s7.text);
    assert_eq!(s7.text, "5");
    assert_eq!(original::Side::new().message(written), "5.");
}

/// The published files, and the sum of the bytes of each.
const PUBLISHED: [(&str, u64); 18] = [
    ("args.rs", 0x6af2_1b7e_ab72_2e26),
    ("builtins.rs", 0xa497_e890_8332_3952),
    ("bundle.rs", 0xad6a_d863_8251_09f9),
    ("concurrent.rs", 0xc2e8_ab47_4e4c_8af5),
    ("entry.rs", 0x1911_d210_e13d_48ec),
    ("errors.rs", 0x4be0_e107_f06f_027b),
    ("memoizer.rs", 0x7ef1_af52_5258_14d7),
    ("message.rs", 0x1485_8841_ecfc_9c0b),
    ("resolver/errors.rs", 0xe55f_60b3_46c5_25e8),
    ("resolver/expression.rs", 0x71f2_98a3_112b_9093),
    ("resolver/inline_expression.rs", 0x088b_65fc_7d6b_504c),
    ("resolver/mod.rs", 0x5122_7227_62a8_3a56),
    ("resolver/pattern.rs", 0xc20d_0da6_6f54_ab42),
    ("resolver/scope.rs", 0x21a2_8759_4594_f1ed),
    ("resource.rs", 0x2d0e_4758_5eca_5780),
    ("types/mod.rs", 0x072c_7c99_1f76_3cce),
    ("types/number.rs", 0x6bb4_f0df_f1bb_f0fc),
    ("types/plural.rs", 0xbbb5_8d92_292a_10b2),
];

/// FNV-1a, of 64 bits.
fn sum(bytes: &[u8]) -> u64 {
    bytes.iter().fold(0xcbf2_9ce4_8422_2325, |sum, b| {
        (sum ^ u64::from(*b)).wrapping_mul(0x100_0000_01b3)
    })
}

#[test]
fn the_published_files_are_as_they_were() {
    let folder = concat!(env!("CARGO_MANIFEST_DIR"), "/../../docs/src/src");
    for (file, wanted) in PUBLISHED {
        let bytes = std::fs::read(format!("{folder}/{file}")).expect(file);
        assert_eq!(sum(&bytes), wanted, "docs/src/src/{file} is changed");
    }
}
