//! The files that the stored command lines name.

mod arguments;

use std::path::Path;
use weszlagyo::syntax::*;
use weszlagyo::{
    FluentArgs, FluentBundle, FluentNumber, FluentResource, FluentValue, Locale, ResourceBuilder,
};

mod embedded {
    #![allow(dead_code)]
    include!(concat!(
        env!("CARGO_MANIFEST_DIR"),
        "/../../crates/sheet/src/embedded.rt"
    ));
}

/// Writes them into a folder.
pub fn write(folder: &Path) {
    let mixed = mixed();
    let usual = embedded::SIGHTING.to_vec();
    let files = [
        ("mixed.store", mixed.clone()),
        ("cut.store", mixed[..mixed.len() - 1].to_vec()),
        ("longer.store", [mixed.as_slice(), b"behind it"].concat()),
        ("cy.store", sheet(Locale::Cy, embedded::CY.to_vec())),
        ("deep.store", deep()),
        ("small.store", small(FluentResource::builder())),
        ("kinds.store", kinds()),
        ("marks.store", marks()),
        ("fractions.store", fractions()),
        ("distances.store", distances()),
        (
            "no-line.store",
            store(Locale::En, &[built(short_messages())]),
        ),
        ("no-value.store", small(no_value())),
        ("digits.store", small(many_digits())),
        ("long.store", small(long(11))),
        ("longer-sheet.store", small(long(12))),
        ("work.store", small(much_work())),
        ("text.store", b"This is no store.\n".to_vec()),
        ("most.store", vec![0; 1_048_576]),
        ("too-long.store", vec![0; 1_048_577]),
        ("usual.arguments", usual.clone()),
        ("cut.arguments", usual[..usual.len() - 1].to_vec()),
        ("other.arguments", other()),
        ("form-order.arguments", arguments::in_form_order()),
        ("twice.arguments", arguments::twice()),
        ("long-scale.arguments", arguments::long_scale()),
        ("long-zero.arguments", arguments::long_zero()),
        ("prefix-behind.arguments", arguments::prefix_behind()),
        ("malformed-too.arguments", arguments::malformed_too()),
        ("no.arguments", vec![0, 0, 0, 7, 1, 0, 0]),
        ("most.arguments", vec![0; 65_536]),
        ("too-long.arguments", vec![0; 65_537]),
        ("empty", Vec::new()),
    ];
    for (name, bytes) in files {
        std::fs::write(folder.join(name), bytes).expect("a file");
    }
    std::fs::create_dir(folder.join("folder")).expect("a folder");
}

fn store(locale: Locale, resources: &[FluentResource]) -> Vec<u8> {
    let mut bundle = FluentBundle::new(vec![locale]);
    bundle.set_use_isolating(false);
    bundle.add_builtins().expect("NUMBER is new");
    for resource in resources {
        bundle.add_resource(resource).expect("no id twice");
    }
    bundle.store().to_vec()
}

/// The store that `--save-store` writes.
fn sheet(locale: Locale, image: Vec<u8>) -> Vec<u8> {
    store(
        locale,
        &[FluentResource::from_image(image).expect("well-formed")],
    )
}

/// Other arguments than the usual ones; the count is -1.5, however it is given.
fn other() -> Vec<u8> {
    let mut args = FluentArgs::new();
    args.set("species", "minke");
    args.set("count", FluentNumber::new(true, 150, 2).expect("a number"));
    args.set("calves", FluentValue::None);
    args.set("observer", "Bo\tÅ");
    args.image().expect("they fit")
}

/// Terms, attributes, and everything that can go wrong.
fn mixed() -> Vec<u8> {
    let greet = Pattern::new()
        .text("Hello, ")
        .place(variable("observer"))
        .text("!");
    let all = |parts: &[Inline]| {
        parts.iter().fold(Pattern::new(), |pattern, part| {
            pattern.text("- ").place(part.clone())
        })
    };
    let unknown = [
        variable("nothing"),
        message("nothing"),
        message_attribute("hello", "nothing"),
        term("nothing"),
        term_attribute("whale", "nothing"),
        call("NOTHING", Arguments::new()),
        message("bare"),
    ];
    let many = |n: usize| (0..n).fold(Pattern::new(), |p, _| p.place(variable("count")));
    let small = FluentResource::builder()
        .message("sheet", "A sheet")
        .message("seen", all(&[variable("count"), message("hello")]))
        .message("hello", "Hello")
        .message("greet", greet)
        .attribute(
            "title",
            Pattern::new().text("For ").place(variable("observer")),
        )
        .attribute("none", all(&[variable("nothing")]))
        .message_without_value("bare")
        .attribute("title", "Bare")
        .term("whale", "whale")
        .attribute("kind", "minke")
        .message("whales", all(&[term("whale"), term("whale")]))
        .message("unknown", all(&unknown))
        .message("cycle", Pattern::new().text("x ").place(message("back")))
        .message("back", Pattern::new().place(message("cycle")))
        .message("control", "a\tb\nc\u{1}d")
        .message("hundred", many(100))
        .message("hundred-one", many(101))
        .message("two-digits", fraction("count", "2"))
        .message("nineteen-digits", fraction("count", "19"))
        .message("twenty-digits", fraction("count", "20"))
        .message(
            "no-default",
            Pattern::from(select(variable("species")).variant("none", "x")),
        );
    // more than 65,536 bytes of text, of workspace and of errors
    let long = FluentResource::builder()
        .message("part", "x".repeat(40_000))
        .message(
            "long",
            Pattern::new().place(message("part")).place(message("part")),
        )
        .message(
            "work",
            Pattern::from(select(message("long")).default("other", "y")),
        );
    let name = "n".repeat(255);
    let names = (0..130).fold(Arguments::new(), |a, _| a.positional(variable(&name)));
    let errors = FluentResource::builder()
        .message("names", Pattern::new().place(call("NUMBER", names)))
        .message(
            "list",
            Pattern::new()
                .place(message("names"))
                .place(message("names")),
        );
    let built = [small, long, errors].map(|builder| builder.build().expect("well-formed"));
    store(Locale::En, &built)
}

fn built(builder: ResourceBuilder) -> FluentResource {
    builder.build().expect("well-formed")
}

/// A sheet of short messages, without what stands between them: one finds an id
/// missing, and one uses the workspace.
fn short_messages() -> ResourceBuilder {
    let seen = Pattern::new().place(variable("count")).text(" or ");
    let chosen = select(placeable(Expression::Inline(message("sheet"))));
    FluentResource::builder()
        .message("sheet", "Small")
        .message("seen", seen.place(message("nothing")))
        .message(
            "away",
            Pattern::from(chosen.variant("Small", "chosen").default("x", "y")),
        )
        .message("who", variable("observer"))
}

/// The store of the README: a message that needs as many bytes of the workspace
/// as the species has.
pub fn kinds() -> Vec<u8> {
    let seen = select(message("kind"))
        .variant("minke", "a minke whale")
        .default("other", "an animal");
    let messages = FluentResource::builder()
        .message("kind", variable("species"))
        .message("seen", Pattern::from(seen));
    let mut bundle = FluentBundle::new(vec![Locale::En]);
    bundle.set_use_isolating(false);
    bundle.add_resource(built(messages)).expect("no id twice");
    bundle.store().to_vec()
}

/// A field as NUMBER gives it, with so many fraction digits at least.
fn fraction(field: &str, digits: &str) -> Inline {
    let given = Arguments::new().positional(variable(field));
    call(
        "NUMBER",
        given.named("minimumFractionDigits", Literal::Number(digits.into())),
    )
}

fn metres(digits: &str) -> Pattern {
    Pattern::new()
        .place(fraction("distance", digits))
        .text(" m")
}

/// The other store of the README: the distance with a minimum of 0 and of 2
/// fraction digits.
pub fn distances() -> Vec<u8> {
    let messages = FluentResource::builder()
        .message("least", metres("0"))
        .message("fine", metres("2"));
    store(Locale::En, &[built(messages)])
}

/// Numbers with a minimum of 0 fraction digits: written, before a dot of the
/// text, as a selector, and in the workspace; others with a minimum of 2.
fn fractions() -> Vec<u8> {
    let ends = Pattern::new()
        .text("It was ")
        .place(fraction("distance", "0"))
        .text(".");
    let choice = select(fraction("count", "0"))
        .variant("1", "equal")
        .variant("one", "one")
        .default("other", "other");
    let held = select(message("least")).default("other", "x");
    let messages = FluentResource::builder()
        .message("least", metres("0"))
        .message("dropped", metres("0.9"))
        .message("negative", metres("-3"))
        .message("fine", metres("2"))
        .message("ends", ends)
        .message("choice", Pattern::from(choice))
        .message("held", Pattern::from(held));
    store(Locale::En, &[built(messages)])
}

/// Sentences with isolation marks in a text, in a literal as it is and by an
/// escape, and in none; one of these is cut short inside two isolates.
fn marks() -> Vec<u8> {
    let escaped = Inline::String("\\u2069".into());
    let inner = select(number("2")).default("p", Pattern::new().place(message("many")));
    let outer = select(number("1")).default("o", Pattern::new().text("x").place(inner));
    let many = (0..98).fold(Pattern::new(), |p, _| p.place(string("")));
    let messages = FluentResource::builder()
        .message("sheet", "Seen from the ship")
        .message("line", "\n- ")
        .message("seen", Pattern::new().place(variable("observer")).text("!"))
        .message("away", Pattern::new().place(outer).text("!"))
        .message("many", many)
        .message("who", "nobody")
        .attribute("text", "x\u{2069}y")
        .attribute(
            "literal",
            Pattern::new().text("x").place(string("\u{2068}")),
        )
        .attribute("escape", Pattern::new().text("x").place(escaped))
        .attribute("exchanged", "\u{2069}\u{2068}")
        .attribute("paired", "\u{2068}x\u{2069}");
    let mut bundle = FluentBundle::new(vec![Locale::En]);
    bundle.add_resource(built(messages)).expect("no id twice");
    bundle.store().to_vec()
}

/// The store of these messages, with changes.
fn small(changes: ResourceBuilder) -> Vec<u8> {
    let mut bundle = FluentBundle::new(vec![Locale::En]);
    bundle.set_use_isolating(false);
    bundle.add_builtins().expect("NUMBER is new");
    let messages = built(short_messages().message("line", "\n- "));
    bundle.add_resource(messages).expect("no id twice");
    bundle
        .add_resource_overriding(built(changes))
        .expect("room");
    bundle.store().to_vec()
}

/// A message of the sheet without a value.
fn no_value() -> ResourceBuilder {
    FluentResource::builder()
        .message_without_value("away")
        .attribute("title", "Away")
}

/// A message of the sheet that is refused with 17.
fn many_digits() -> ResourceBuilder {
    FluentResource::builder().message("away", fraction("count", "20"))
}

/// A message of the sheet with so many times 40,000 bytes of text.
fn long(times: usize) -> ResourceBuilder {
    let parts = (0..times).fold(Pattern::new(), |p, _| p.place(message("part")));
    FluentResource::builder()
        .message("part", "x".repeat(40_000))
        .message("seen", parts)
}

/// A message of the sheet that needs 80,000 bytes of workspace.
fn much_work() -> ResourceBuilder {
    let text = placeable(Expression::Inline(message("seen")));
    let chosen = Pattern::from(select(text).default("other", "y"));
    long(2).message("away", chosen)
}

/// References inside each other, each nested as deep as is allowed.
fn deep() -> Vec<u8> {
    let mut builder = FluentResource::builder().term("t", "t");
    for n in 0..102 {
        let inner = message(format!("m{}", n + 1));
        let nested = (1..32).fold(inner, |inner, _| {
            term_with("t", Arguments::new().positional(inner))
        });
        builder = builder.message(format!("m{n}"), nested);
    }
    store(Locale::En, &[builder.build().expect("well-formed")])
}
