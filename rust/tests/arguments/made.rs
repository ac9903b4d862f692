//! The images that `FluentArgs` writes.

use crate::image::{is_least, read, written, Value};
use crate::random::Random;
use crate::{bundle, text, NAMES};
use std::collections::BTreeMap;
use std::slice::from_ref;
use weszlagyo::{Buffers, FluentArgs, FluentNumber, FluentValue, Sheet};

fn image(args: &FluentArgs) -> Vec<u8> {
    args.image().expect("they fit")
}

/// All orders of these.
fn orders<T: Clone>(all: &[T]) -> Vec<Vec<T>> {
    if all.is_empty() {
        return vec![Vec::new()];
    }
    let mut out = Vec::new();
    for at in 0..all.len() {
        let mut rest = all.to_vec();
        let first = rest.remove(at);
        for order in orders(&rest) {
            out.push([from_ref(&first), order.as_slice()].concat());
        }
    }
    out
}

/// Any value, numbers with any scale.
fn value(random: &mut Random) -> Value {
    match random.below(6) {
        0 => Value::None,
        1 => Value::Text("x".repeat(random.below(3))),
        _ => {
            let digits = random.of(&[0, 0, 1, 5, 10, 15, 150, 1_500, 999_999_999_999_999]);
            let (negative, scale) = (random.below(2) == 1, random.below(15) as u8);
            Value::Number(negative, digits, scale)
        }
    }
}

/// Some arguments as they are given one by one, names perhaps repeated.
fn calls(random: &mut Random, most: usize) -> Vec<(&'static str, Value)> {
    let length = random.below(most + 1);
    let call = |_| (random.of(&NAMES), value(random));
    (0..length).map(call).collect()
}

fn args_of(calls: &[(&'static str, Value)]) -> FluentArgs<'static> {
    let mut args = FluentArgs::new();
    for (name, value) in calls {
        args.set(*name, value.given());
    }
    args
}

#[test]
fn any_order_of_set_calls_gives_one_image() {
    let names = &NAMES[1..7];
    let arguments: Vec<(&str, Value)> = names
        .iter()
        .zip(0..)
        .map(|(name, n)| (*name, Value::Number(false, n, 0)))
        .collect();
    let expected = written(arguments.clone());
    let orders = orders(&arguments);
    assert_eq!(orders.len(), 720);
    for order in orders {
        assert_eq!(image(&args_of(&order)), expected, "{order:?}");
        let collected: FluentArgs = order.iter().map(|(n, v)| (*n, v.given())).collect();
        assert_eq!(image(&collected), expected, "{order:?}");
    }
}

/// And so the image is that of a map: each name once, in ascending order.
#[test]
fn of_a_repeated_name_the_last_value_is_written() {
    let mut args = FluentArgs::new();
    for n in [1, 2, 3] {
        args.set("a", n);
    }
    let three = Value::Number(false, 3, 0);
    assert_eq!(read(&image(&args)), [("a".to_string(), three)]);

    let mut random = Random(1);
    let mut repeated = 0;
    for _ in 0..5_000 {
        let calls = calls(&mut random, 20);
        let last: BTreeMap<&str, Value> = calls.iter().map(|(n, v)| (*n, v.least())).collect();
        repeated += usize::from(last.len() < calls.len());
        assert_eq!(image(&args_of(&calls)), written(last), "{calls:?}");
    }
    assert!(repeated > 1_000, "{repeated}");
}

/// By the bytes themselves, and not by the order of `FluentArgs`.
#[test]
fn names_ascend_and_scales_are_least() {
    let mut random = Random(2);
    for _ in 0..5_000 {
        let arguments = read(&image(&args_of(&calls(&mut random, 20))));
        let ascend = |two: &[(String, Value)]| two[0].0.as_bytes() < two[1].0.as_bytes();
        assert!(arguments.windows(2).all(ascend), "{arguments:?}");
        let is_short = |(_, value): &(String, Value)| *value == value.least();
        assert!(arguments.iter().all(is_short), "{arguments:?}");
    }
}

/// The one number of an image.
fn in_image(value: impl Into<FluentValue<'static>>) -> Value {
    let args = FluentArgs::from_iter([("a", value.into())]);
    let [(_, value)] = read(&image(&args)).try_into().expect("one argument");
    value
}

#[test]
fn numbers_are_written_with_the_least_scale() {
    for (text, negative, digits, scale) in [
        ("1.50", false, 15, 1),
        ("1.5", false, 15, 1),
        ("0.0", false, 0, 0),
        ("0", false, 0, 0),
        ("-0.00", true, 0, 0),
        ("-0", true, 0, 0),
        ("10", false, 10, 0),
        ("-10.0", true, 10, 0),
        ("100.010", false, 10_001, 2),
        ("0.00000000000001", false, 1, 14),
        ("0.10000000000000", false, 1, 1),
        ("999999999999999", false, 999_999_999_999_999, 0),
    ] {
        let number: FluentNumber = text.parse().expect(text);
        let expected = Value::Number(negative, digits, scale);
        assert_eq!(in_image(number), expected, "{text}");
        assert_eq!(in_image(FluentValue::try_number(text)), expected, "{text}");
        let double: f64 = text.parse().expect(text);
        let number = FluentNumber::try_from(double).expect(text);
        assert_eq!(in_image(number), expected, "{text}");
    }
}

#[test]
fn every_scale_is_brought_to_the_least() {
    let many = [0, 1, 5, 10, 150, 1_000, 999_999_999_999_999];
    for digits in many.into_iter().chain([100_000_000_000_000]) {
        for scale in 0..=14 {
            for negative in [false, true] {
                let number = FluentNumber::new(negative, digits, scale).expect("15 digits");
                let Value::Number(sign, least, fewer) = in_image(number) else {
                    panic!("it is a number");
                };
                assert_eq!((sign, fewer <= scale), (negative, true));
                assert!(is_least(least, fewer), "{digits} {scale}");
                assert_eq!(least * 10_u64.pow((scale - fewer).into()), digits);
                assert_eq!((number.digits(), number.scale()), (least, fewer));
            }
        }
    }
    assert!(FluentNumber::new(false, 1_000_000_000_000_000, 14).is_err());
    assert!(FluentNumber::new(false, 0, 15).is_err());
}

/// Up to two arguments of few names and few values, so that two of them are often
/// equal; the numbers are 1.5, 0 and -0, with several scales.
fn near(random: &mut Random) -> FluentArgs<'static> {
    let mut args = FluentArgs::new();
    for _ in 0..random.below(3) {
        let (zeros, scale) = random.of(&[(1, 0), (10, 1), (100, 2)]);
        let value = match random.below(4) {
            0 => Value::Number(false, 15 * zeros, 1 + scale),
            1 => Value::Number(false, 0, scale),
            2 => Value::Number(true, 0, scale),
            _ => Value::Text("x".into()),
        };
        args.set(random.of(&["a", "b"]), value.given());
    }
    args
}

#[test]
fn equal_arguments_are_equal_bytes_and_others_are_not() {
    let mut random = Random(3);
    let (mut equal, mut unequal) = (0, 0);
    for _ in 0..20_000 {
        let (one, other) = (near(&mut random), near(&mut random));
        match one == other {
            true => equal += 1,
            false => unequal += 1,
        }
        let same_bytes = image(&one) == image(&other);
        assert_eq!(same_bytes, one == other, "{one:?} {other:?}");
    }
    assert!(equal > 1_000 && unequal > 1_000, "{equal} {unequal}");
}

#[test]
fn zero_and_minus_zero_are_two_values() {
    let zero = |negative, scale| {
        let number = FluentNumber::new(negative, 0, scale).expect("a number");
        FluentArgs::from_iter([("a", FluentValue::from(number))])
    };
    let (plus, minus) = (zero(false, 0), zero(true, 0));
    assert_ne!(plus, minus);
    let differing: Vec<(u8, u8)> = image(&plus)
        .into_iter()
        .zip(image(&minus))
        .filter(|(one, other)| one != other)
        .collect();
    assert_eq!(differing, [(0, 1)], "the sign and nothing else");
    for scale in 0..=14 {
        assert_eq!(image(&zero(false, scale)), image(&plus));
        assert_eq!(image(&zero(true, scale)), image(&minus));
    }
    let bundle = bundle();
    assert_eq!(text(&bundle, &image(&plus)).as_deref(), Ok("0"));
    assert_eq!(text(&bundle, &image(&minus)).as_deref(), Ok("-0"));
}

/// By the operations, in a formatting and in a sheet.
#[test]
fn every_image_is_accepted() {
    let (bundle, mut random) = (bundle(), Random(4));
    let mut buffers = Buffers::default();
    for _ in 0..2_000 {
        let args = args_of(&calls(&mut random, 20));
        let alone = bundle.format("m", None, Some(&args)).expect("accepted");
        let mut sheet = Sheet::new();
        sheet.push("m", None, Some(&args)).expect("it fits");
        let done = bundle.format_sheet_in(&mut buffers, &sheet);
        let figures = done.expect("accepted");
        assert_eq!(buffers.text(figures), alone.text);
    }
}

/// The shortest decimal, worked out from what was given.
fn shortest(negative: bool, digits: u64, scale: u8) -> String {
    let sign = if negative { "-" } else { "" };
    let point = 10_u64.pow(scale.into());
    let (whole, width) = (digits / point, usize::from(scale));
    let fraction = format!("{:0width$}", digits % point);
    let fraction = match fraction.trim_end_matches('0') {
        "" => String::new(),
        left => format!(".{left}"),
    };
    format!("{sign}{whole}{fraction}")
}

#[test]
fn the_text_does_not_depend_on_the_scale_that_was_given() {
    assert_eq!(shortest(true, 150, 2), "-1.5");
    assert_eq!(shortest(false, 1_005, 3), "1.005");
    assert_eq!(shortest(true, 0, 4), "-0");
    let (bundle, mut random) = (bundle(), Random(5));
    for _ in 0..2_000 {
        let digits = random.next() % 10_u64.pow(random.below(16) as u32);
        let zeros = random.below(4) as u32;
        let digits = digits / 10_u64.pow(zeros) * 10_u64.pow(zeros);
        let (negative, scale) = (random.below(2) == 1, random.below(15) as u8);
        let args = args_of(&[("a", Value::Number(negative, digits, scale))]);
        let expected = shortest(negative, digits, scale);
        assert_eq!(text(&bundle, &image(&args)), Ok(expected));
    }
}
