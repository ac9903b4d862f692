//! The messages full of escapes: the crate and the original give the text that they
//! should, with escapes and without.

use against::convert;
use against::literals::{Literals, ALL};
use against::sheet::Printed;
use fluent_syntax::ast::*;
use harness::case::Item;
use harness::rust;

fn ours(printed: &Printed) -> String {
    let (id, given) = &printed.messages[0];
    let args = convert::arguments(given);
    let done = printed.made().format(id, None, Some(&args));
    let done = done.expect("formatted");
    assert!(done.errors.is_empty());
    done.text
}

fn originals(printed: &Printed) -> String {
    let (id, given) = &printed.messages[0];
    let bundle = rust::bundle(&printed.bundle);
    let args = rust::arguments(given);
    let message = bundle.get_message(id).expect("it is there");
    let value = message.value().expect("it has a value");
    let mut errors = vec![];
    let text = bundle.format_pattern(value, Some(&args), &mut errors);
    assert!(errors.is_empty());
    text.into_owned()
}

/// The string literals of the message.
fn literals(printed: &Printed) -> Vec<&str> {
    let [Item::Plain(Resource { body })] = printed.bundle.items.as_slice() else {
        panic!("one resource");
    };
    let [Entry::Message(Message {
        value: Some(value), ..
    })] = body.as_slice()
    else {
        panic!("one message");
    };
    value.elements.iter().map(literal).collect()
}

fn literal(element: &PatternElement<String>) -> &str {
    match element {
        PatternElement::Placeable {
            expression: Expression::Inline(InlineExpression::StringLiteral { value }),
        } => value,
        _ => panic!("a literal in a placeable"),
    }
}

/// What each message's literals are, and its text.
fn expected(literals: Literals) -> (&'static str, &'static str) {
    match literals {
        Literals::Decimal => (
            r"\u0174\u0175\u0176\u0177\u0174\u0175\u0176\u0177\u0174\u0175",
            "ŴŵŶŷŴŵŶŷŴŵ",
        ),
        Literals::Upper => (
            r"\u00C2\u00CA\u00CE\u00D4\u00DB\u00E2\u00EA\u00EE\u00F4\u00FB",
            "ÂÊÎÔÛâêîôû",
        ),
        Literals::Lower => (
            r"\u00c2\u00ca\u00ce\u00d4\u00db\u00e2\u00ea\u00ee\u00f4\u00fb",
            "ÂÊÎÔÛâêîôû",
        ),
        Literals::Long => (
            r"\U0000C2\U0000ca\U0000CE\U0000d4\U0000DB\U0000e2\U0000EA\U0000ee\U0000F4\U0000fb",
            "ÂÊÎÔÛâêîôû",
        ),
    }
}

#[test]
fn texts() {
    for one in ALL {
        let (escaped, text) = expected(one);
        for (printed, literal) in [(one.printed(), escaped), (one.in_bytes(), text)] {
            assert_eq!(literals(&printed), [literal; 10]);
            assert_eq!(ours(&printed), text.repeat(10), "{one}");
            assert_eq!(originals(&printed), text.repeat(10), "{one}");
        }
    }
}

/// `\U` has half of its letters in upper case and half in lower case, and two digits
/// more in each escape, all of them 0: so the difference between it and the mean of the
/// two cases is what those take.
#[test]
fn counts() {
    let counts = ALL.map(|one| (one.escapes(), one.digits(), one.digits_above_9()));
    let [short, long] = [(100, 400, 160), (100, 600, 160)];
    assert_eq!(counts, [(100, 400, 0), short, short, long]);

    let (escaped, _) = expected(Literals::Long);
    let digits = escaped.replace('U', "");
    let upper = digits.matches(|c: char| c.is_ascii_uppercase()).count();
    let lower = digits.matches(|c: char| c.is_ascii_lowercase()).count();
    assert_eq!([upper, lower], [8, 8]);
}
