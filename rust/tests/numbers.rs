//! The text of a number in a message: the shortest decimal, zeros up to the
//! minimum of fraction digits, and no dot without digits.
#![forbid(unsafe_code)]

use weszlagyo::syntax::*;
use weszlagyo::*;

/// Numbers as they are given, and their shortest decimals.
const NUMBERS: [(&str, &str); 14] = [
    ("0", "0"),
    ("-0", "-0"),
    ("0.000", "0"),
    ("5", "5"),
    ("-5", "-5"),
    ("10", "10"),
    ("100.0", "100"),
    ("5.50", "5.5"),
    ("0.5", "0.5"),
    ("-0.01", "-0.01"),
    ("999999999999999", "999999999999999"),
    ("-99999999999999.9", "-99999999999999.9"),
    ("0.00000000000001", "0.00000000000001"),
    ("1.23456789012345", "1.23456789012345"),
];

/// `$n` with at least so many fraction digits.
fn number_of(minimum: &str) -> Inline {
    let given = Arguments::new().positional(variable("n"));
    let minimum = Literal::Number(minimum.into());
    call("NUMBER", given.named("minimumFractionDigits", minimum))
}

/// In the message `lone` the number is alone, in `ends` it stands before a dot, in
/// `held` it goes to the workspace.
fn bundle(minimum: &str) -> FluentBundle {
    let ends = Pattern::new().place(number_of(minimum)).text(".");
    let held = select(message("lone")).default("other", "x");
    let resource = FluentResource::builder()
        .message("lone", number_of(minimum))
        .message("ends", ends)
        .message("held", Pattern::from(held));
    let mut bundle = FluentBundle::new(vec![Locale::En]);
    bundle.set_use_isolating(false);
    bundle.add_builtins().expect("NUMBER is new");
    let resource = resource.build().expect("well-formed");
    bundle.add_resource(resource).expect("no id twice");
    bundle
}

/// A shortest decimal with zeros up to the minimum, and a dot before them if it
/// has none.
fn padded(shortest: &str, minimum: usize) -> String {
    let digits = shortest.split_once('.').map_or(0, |parts| parts.1.len());
    let zeros = "0".repeat(minimum.saturating_sub(digits));
    match (digits, zeros.is_empty()) {
        (0, false) => format!("{shortest}.{zeros}"),
        _ => format!("{shortest}{zeros}"),
    }
}

/// The text of each message, and the bytes of workspace of `held`.
fn check(minimum: &str, digits: usize) {
    let bundle = bundle(minimum);
    for (given, shortest) in NUMBERS {
        let args = FluentArgs::from_iter([("n", FluentValue::try_number(given))]);
        let of = |id: &str| bundle.format(id, None, Some(&args)).expect("formatted");
        let text = padded(shortest, digits);
        assert!(text.ends_with(|c: char| c.is_ascii_digit()), "{text}");
        assert_eq!(of("lone").text, text, "{given}, minimum {minimum}");
        assert_eq!(
            of("ends").text,
            format!("{text}."),
            "{given}, minimum {minimum}"
        );
        let held = of("held");
        assert_eq!(held.text, "x");
        assert_eq!(held.figures.work, text.len(), "{given}, minimum {minimum}");
    }
}

#[test]
fn zeros_up_to_the_minimum_and_no_dot_alone() {
    for minimum in 0..=19 {
        check(&minimum.to_string(), minimum);
    }
}

#[test]
fn a_minimum_drops_its_fraction_and_is_0_below_zero() {
    for (minimum, digits) in [
        ("0.9", 0),
        ("-0", 0),
        ("-1", 0),
        ("-20", 0),
        ("0.0", 0),
        ("1.9", 1),
    ] {
        check(minimum, digits);
    }
}

/// A text buffer of just the digits is enough, and one byte less is refused with 15.
#[test]
fn no_room_is_taken_for_a_dot() {
    let bundle = bundle("0");
    let args = FluentArgs::from_iter([("n", 123)]);
    let mut enough = Buffers::fixed(3, 5, 0);
    let done = bundle.format_in(&mut enough, "lone", None, Some(&args));
    assert_eq!(done.expect("formatted").text, 3);
    let mut short = Buffers::fixed(2, 5, 0);
    let refused = bundle.format_in(&mut short, "lone", None, Some(&args));
    assert_eq!(refused.expect_err("refused"), Refusal::SHORT_TEXT);
}

/// Which variant is chosen does not change: the category is that of a number without
/// fraction digits, and a number with a minimum equals no key without one.
#[test]
fn a_choice_is_as_before() {
    let choose = |minimum: &str| {
        let chosen = select(number_of(minimum))
            .variant("1", "equal")
            .variant("one", "one")
            .default("other", "other");
        let resource = FluentResource::builder().message("a", Pattern::from(chosen));
        let mut bundle = FluentBundle::new(vec![Locale::En]);
        bundle.add_builtins().expect("NUMBER is new");
        let resource = resource.build().expect("well-formed");
        bundle.add_resource(resource).expect("no id twice");
        let args = FluentArgs::from_iter([("n", 1)]);
        bundle
            .format("a", None, Some(&args))
            .expect("formatted")
            .text
    };
    assert_eq!(choose("0"), "one");
    assert_eq!(choose("1"), "other");
}
