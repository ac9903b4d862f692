//! The crate as its users meet it: bundles, resources, arguments, errors, and
//! buffers that grow.
#![forbid(unsafe_code)]

use weszlagyo::syntax::*;
use weszlagyo::*;

fn bundle(resource: &ResourceBuilder) -> FluentBundle {
    let mut bundle = FluentBundle::new(vec![Locale::En]);
    bundle.add_builtins().expect("NUMBER is new");
    let resource = resource.build().expect("well-formed");
    bundle.add_resource(resource).expect("no id twice");
    bundle
}

fn args<'a>(name: &'a str, value: impl Into<FluentValue<'a>>) -> FluentArgs<'a> {
    FluentArgs::from_iter([(name, value)])
}

/// The text and errors of the value of `a`.
fn formatted(resource: &ResourceBuilder, args: Option<&FluentArgs>) -> (String, Vec<FluentError>) {
    let done = bundle(resource).format("a", None, args).expect("formatted");
    (done.text, done.errors)
}

fn text_of(resource: &ResourceBuilder, args: Option<&FluentArgs>) -> String {
    formatted(resource, args).0
}

fn one(value: impl Into<Pattern>) -> ResourceBuilder {
    FluentResource::builder().message("a", value)
}

fn unknown_variable(id: &str) -> FluentError {
    ResolverError::Reference(ReferenceKind::Variable { id: id.into() }).into()
}

#[test]
fn document_01_s_image() {
    let image = [
        0, 0, 0, 0x1C, 1, 0, 1, 1, 0, 1, 0x61, 1, 0, 0, 0, 0x0A, 0, 1, 1, 0, 5, 0x48, 0x65, 0x6C,
        0x6C, 0x6F, 0, 0,
    ];
    assert_eq!(one("Hello").build().expect("well-formed").image(), image);
    let read = FluentResource::from_image(image.to_vec()).expect("well-formed");
    assert_eq!(read, one("Hello").build().expect("well-formed"));
}

#[test]
fn document_01_s_sentences() {
    assert_eq!(text_of(&one("Hello"), None), "Hello");
    let whales = one(Pattern::new().place(variable("n")).text(" whales"));
    let three = args("n", 3);
    assert_eq!(text_of(&whales, Some(&three)), "\u{2068}3\u{2069} whales");
    let missing = formatted(&whales, None);
    assert_eq!(missing.0, "\u{2068}{$n}\u{2069} whales");
    assert_eq!(missing.1, [unknown_variable("n")]);
    assert_eq!(text_of(&one(variable("n")), None), "{$n}");
    let cyclic = formatted(&one(Pattern::new().text("x ").place(message("a"))), None);
    assert_eq!(cyclic.0, "x {a}");
    assert_eq!(cyclic.1, [ResolverError::Cyclic.into()]);
    let terms = one(Pattern::new()
        .place(term("t"))
        .text(" ")
        .place(variable("n")))
    .term("t", variable("n"));
    let two = args("n", 2);
    assert_eq!(text_of(&terms, Some(&two)), "{$n} \u{2068}2\u{2069}");
    let cleared = one(term("t"))
        .term("t", Pattern::new().place(term("u")).place(variable("n")))
        .term("u", "u");
    assert_eq!(text_of(&cleared, Some(&two)), "u\u{2068}2\u{2069}");
    let zero = Literal::Number("0".into());
    let five = Arguments::new()
        .positional(number("5"))
        .named("minimumFractionDigits", zero);
    assert_eq!(text_of(&one(call("NUMBER", five)), None), "5");
    let none = Arguments::new().positional(variable("m"));
    let none = formatted(&one(call("NUMBER", none)), None);
    assert_eq!(none, ("NUMBER()".into(), vec![unknown_variable("m")]));
    assert_eq!(text_of(&one(call("F", Arguments::new())), None), "{F()}");
    let choice = select(variable("n")).variant("1.0", "x").default("o", "y");
    assert_eq!(text_of(&one(choice), Some(&args("n", 1))), "y");
    let many = |count| {
        let elements = vec![Element::Placeable(string("w").into()); count];
        one(Pattern { elements })
    };
    assert_eq!(formatted(&many(100), None), ("w".repeat(100), vec![]));
    let cut = formatted(&many(101), None);
    assert_eq!(cut.0, "w".repeat(100));
    assert_eq!(cut.1, [ResolverError::TooManyPlaceables.into()]);
    let within = many(100).message("b", message("a"));
    let done = bundle(&within).format("b", None, None).expect("formatted");
    assert_eq!(done.text, "w".repeat(99) + "{a}");
    assert_eq!(done.figures.begun, 101);
}

#[test]
fn one_name_space() {
    let mut bundle = FluentBundle::default();
    let foo = |builder: ResourceBuilder| builder.build().expect("well-formed");
    let first = FluentResource::builder().message("foo", "x");
    bundle.add_resource(foo(first)).expect("foo is new");
    let second = FluentResource::builder()
        .term("foo", "y")
        .message("a", term("foo"));
    let errors = bundle.add_resource(foo(second)).expect_err("foo is held");
    let overriding = |kind, id: &str| FluentError::Overriding {
        kind,
        id: id.into(),
    };
    assert_eq!(errors, [overriding(EntryKind::Term, "foo")]);
    let done = bundle.format("a", None, None).expect("formatted");
    assert_eq!((done.text.as_str(), done.figures.unfound), ("{-foo}", 0));
    let refused = bundle.add_function("foo", builtins::NUMBER);
    assert_eq!(refused, Err(overriding(EntryKind::Function, "foo")));
    let third = FluentResource::builder().message("foo", "z");
    bundle.add_resource_overriding(foo(third)).expect("room");
    assert_eq!(bundle.format("foo", None, None).expect("it").text, "z");
    let bad = bundle.add_function("1x", builtins::NUMBER);
    assert_eq!(bad, Err(FluentError::Refused(Refusal::NO_ID)));
}

#[test]
fn messages_and_attributes() {
    let builder = FluentResource::builder()
        .message_without_value("a")
        .attribute("x", "X")
        .attribute("x", "later")
        .term("t", "T")
        .attribute("y", "Y");
    let bundle = bundle(&builder);
    assert!(bundle.has_message("a") && !bundle.has_message("t") && !bundle.has_message("?"));
    assert!(bundle.get_message("NUMBER").is_none());
    let message = bundle.get_message("a").expect("it is there");
    assert!(message.value().is_none() && message.get_attribute("y").is_none());
    let attribute = message.get_attribute("x").expect("it is there");
    assert_eq!(attribute.id(), "x");
    let mut errors = vec![];
    let text = bundle.format_pattern(attribute.value(), None, &mut errors);
    assert_eq!((text.as_ref(), errors.len()), ("X", 0));
    assert_eq!(bundle.format("a", None, None), Err(Refusal::NO_PATTERN));
    assert_eq!(bundle.format("t", None, None), Err(Refusal::NO_MESSAGE));
    assert_eq!(bundle.format("a", Some(""), None), Err(Refusal::NO_ID));
}

#[test]
fn what_a_resource_can_not_be() {
    let deep = |depth: usize| (1..depth).fold(variable("n"), |inner, _| placeable(inner));
    assert!(one(deep(32)).build().is_ok());
    let same = Arguments::new()
        .named("x", Literal::Number("1".into()))
        .named("x", Literal::Number("2".into()));
    for refused in [
        one(""),
        one(deep(33)),
        one(deep(64)),
        one(deep(65)),
        one(deep(2000)),
        one(Pattern::new()),
        one(number("1234567890123456")),
        one(Inline::String("\\x".into())),
        one(call("F", same)),
        one("x".repeat(65_536)),
        one("x".repeat(65_000)).message("b", "x".repeat(1000)),
        FluentResource::builder().message("é", "x"),
        FluentResource::builder().message_without_value("a"),
        FluentResource::builder().term("", "x"),
    ] {
        assert_eq!(refused.build(), Err(Refusal::MALFORMED_RESOURCE));
    }
    assert!(FluentResource::builder().build().is_ok());
}

#[test]
fn buffers_grow() {
    let long = "w".repeat(5000);
    let mut pattern = Pattern::new().text(&long);
    for n in 0..60 {
        pattern = pattern.place(variable(format!("missing{n}")));
    }
    let inner = placeable(Expression::Inline(message("b")));
    let resource = one(pattern.place(select(inner).default("x", "chosen"))).message("b", &*long);
    let done = bundle(&resource)
        .format("a", None, None)
        .expect("formatted");
    assert!(done.text.starts_with(&long) && done.text.ends_with("chosen\u{2069}"));
    assert_eq!((done.errors.len(), done.figures.work), (60, 5000));
    let mut buffers = Buffers::with_lengths(0, 0, 0);
    let bundle = bundle(&resource);
    let figures = bundle.format_in(&mut buffers, "a", None, None).expect("it");
    assert_eq!(buffers.text(figures), done.text);
    assert_eq!(buffers.errors(figures), done.errors);
}

#[test]
fn a_store_grows_to_its_limits() {
    let mut full = FluentBundle::default();
    let image = |n: usize| {
        let builder = FluentResource::builder().message(format!("m{n}"), "x".repeat(65_000));
        builder.build().expect("well-formed")
    };
    let added = (0..).find(|n| full.add_resource(image(*n)).is_err());
    assert_eq!(added, Some(16));
    let refused = full.add_resource(image(16)).expect_err("it is full");
    assert_eq!(refused, [FluentError::Refused(Refusal::FULL_STORE)]);
    assert_eq!(
        full.format("m15", None, None).expect("it").text.len(),
        65_000
    );
    let mut items = FluentBundle::default();
    for n in 0..256 {
        items
            .add_resource(
                FluentResource::builder()
                    .message(format!("m{n}"), "x")
                    .build()
                    .expect("ok"),
            )
            .expect("256 items");
    }
    let refused = items.add_builtins().expect_err("256 items are there");
    assert_eq!(refused, FluentError::Refused(Refusal::FULL_STORE));
}

#[test]
fn many_overriding_errors() {
    let mut builder = FluentResource::builder();
    for n in 0..300 {
        builder = builder.message(format!("message-{n}"), "x");
    }
    let mut bundle = bundle(&builder);
    let errors = bundle
        .add_resource(builder.build().expect("ok"))
        .expect_err("all");
    assert_eq!(errors.len(), 300);
    assert_eq!(
        errors[299].to_string(),
        "Attempt to override an existing message: \"message-299\"."
    );
}

#[test]
fn stores_are_kept_and_checked() {
    let mut before = bundle(&one("Hello"));
    before.set_use_isolating(false);
    let kept = FluentBundle::from_store(before.store().to_vec()).expect("a store");
    assert_eq!((kept.locale(), kept.store()), (Locale::En, before.store()));
    assert_eq!(kept.format("a", None, None).expect("it").text, "Hello");
    let mut bad = before.store().to_vec();
    bad[6] = 2;
    let refused = FluentBundle::from_store(bad).map(|_| ());
    assert_eq!(refused, Err(Refusal::MALFORMED_STORE));
    let empty = FluentBundle::from_store(vec![]).map(|_| ());
    assert_eq!(empty, Err(Refusal::MALFORMED_STORE));
}

#[test]
fn arguments_and_numbers() {
    let text = |value: FluentValue| text_of(&one(variable("n")), Some(&args("n", value)));
    assert_eq!(text(7.into()), "7");
    assert_eq!(text((-7_i8).into()), "-7");
    assert_eq!(text("x".into()), "x");
    assert_eq!(text(None::<u8>.into()), "");
    assert_eq!(text(FluentValue::try_number("1.50")), "1.5");
    assert_eq!(text(FluentValue::try_number("1.5.0")), "1.5.0");
    assert_eq!(text(FluentNumber::try_from(-0.0).expect("it").into()), "-0");
    assert_eq!(text(FluentNumber::try_from(0.1).expect("it").into()), "0.1");
    assert_eq!(FluentNumber::try_from(f64::NAN), Err(NotADecimal));
    assert_eq!(FluentNumber::try_from(1e15), Err(NotADecimal));
    assert_eq!(FluentNumber::try_from(0.1 + 0.2), Err(NotADecimal));
    assert_eq!(FluentNumber::try_from(u64::MAX), Err(NotADecimal));
    assert_eq!(
        FluentNumber::try_from(999_999_999_999_999_u64).map(|n| n.digits()),
        Ok(999_999_999_999_999)
    );
    assert_eq!(
        FluentNumber::try_from(-5_isize).map(|n| n.is_negative()),
        Ok(true)
    );
    let mut given = FluentArgs::new();
    given.set("b", 1);
    given.set("a", "x");
    given.set("b", 2);
    assert_eq!(given.get("b"), Some(&FluentValue::from(2)));
    let names: Vec<&str> = given.iter().map(|(name, _)| name).collect();
    assert_eq!(names, ["a", "b"]);
    let bundle = bundle(&one("x"));
    for bad in [
        args("é", 1),
        args("n", "x".repeat(65_536)),
        args("n", "x".repeat(65_530)),
    ] {
        let refused = bundle.format("a", None, Some(&bad));
        assert_eq!(refused, Err(Refusal::MALFORMED_ARGUMENTS));
        let mut errors = vec![];
        let message = bundle.get_message("a").expect("it");
        let value = message.value().expect("it");
        assert_eq!(bundle.format_pattern(value, Some(&bad), &mut errors), "");
        assert_eq!(errors, [FluentError::Refused(Refusal::MALFORMED_ARGUMENTS)]);
    }
}

#[test]
fn locales() {
    let choice = select(variable("n"))
        .variant("one", "one")
        .variant("few", "few")
        .variant("many", "many")
        .default("other", "other");
    let resource = one(choice).build().expect("well-formed");
    for (name, words) in [
        ("en-GB", ["other", "one", "other", "other"]),
        ("da", ["other", "one", "other", "other"]),
        ("ru", ["many", "one", "few", "many"]),
        ("cy_GB", ["other", "one", "other", "other"]),
    ] {
        let mut bundle = FluentBundle::new(vec![name.parse().expect("one of four")]);
        bundle.add_resource(&resource).expect("a is new");
        for (n, word) in [0, 1, 2, 5].iter().zip(words) {
            let done = bundle.format("a", None, Some(&args("n", n)));
            assert_eq!(done.expect("formatted").text, word, "{name} {n}");
        }
    }
    assert_eq!("fr".parse::<Locale>(), Err(UnknownLocale));
}

#[test]
fn the_deepest_formatting() {
    let mut builder = FluentResource::builder().term("t", "t");
    for n in 0..102 {
        let inner = message(format!("m{}", n + 1));
        let nested = (1..32).fold(inner, |inner, _| {
            term_with("t", Arguments::new().positional(inner))
        });
        builder = builder.message(format!("m{n}"), nested);
    }
    let bundle = bundle(&builder);
    let done = bundle.format("m0", None, None).expect("formatted");
    let deep = on_deep_stack(|| bundle.format("m0", None, None));
    assert_eq!(deep.as_ref(), Ok(&done));
    assert_eq!(done.figures.begun, 101);
    assert_eq!(done.errors, [ResolverError::TooManyPlaceables.into()]);
}

#[test]
fn a_bundle_is_shared_between_threads() {
    fn shared<T: Send + Sync>(_: &T) {}
    shared(&FluentBundle::default());
}
