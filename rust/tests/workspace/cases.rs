//! Messages, and what each needs of the workspace.

use weszlagyo::syntax::*;
use weszlagyo::*;

/// A message that is formatted with `arguments()`.
pub struct Case {
    pub id: &'static str,
    /// The text, without isolation marks.
    pub text: &'static str,
    pub errors: usize,
    pub unfound: u64,
    /// The figure of a bundle that does not isolate, and of one that does.
    pub plain: usize,
    pub isolated: usize,
}

impl Case {
    pub fn figure(&self, isolating: bool) -> usize {
        match isolating {
            true => self.isolated,
            false => self.plain,
        }
    }
}

/// A case without errors.
const fn case(id: &'static str, text: &'static str, plain: usize, isolated: usize) -> Case {
    Case {
        id,
        text,
        errors: 0,
        unfound: 0,
        plain,
        isolated,
    }
}

/// A case with errors.
const fn wrong(id: &'static str, text: &'static str, counts: (usize, u64), figure: usize) -> Case {
    Case {
        errors: counts.0,
        unfound: counts.1,
        ..case(id, text, figure, figure)
    }
}

/// A case that is cut short.
const fn cut_short(id: &'static str, text: &'static str, plain: usize, isolated: usize) -> Case {
    Case {
        errors: 1,
        ..case(id, text, plain, isolated)
    }
}

/// The arguments of all of them: `n` is 3, `name` has 3 bytes.
pub fn arguments() -> FluentArgs<'static> {
    let mut given = FluentArgs::new();
    given.set("n", 3);
    given.set("name", "Ås");
    given.set("none", FluentValue::None);
    given
}

/// An isolation mark has 3 bytes.
pub const CASES: &[Case] = &[
    // nothing goes there: texts, and what is written where it stands
    case("plain", "Hello", 0, 0),
    case("filled", "3 seen", 0, 0),
    case("refers", "minke and whale", 0, 0),
    case("by-variable", "x", 0, 0),
    case("by-literal", "x", 0, 0),
    case("by-number", "x", 0, 0),
    case("plain-option", "3", 0, 0),
    case("term-plain", "a minke whale", 0, 0),
    // what goes there has no bytes
    case("by-none", "x", 0, 0),
    // selectors: minke; mk; whale; Ås; minke; Ab; a whale's picture; кит
    case("by-message", "x", 5, 5),
    case("by-attribute", "x", 2, 2),
    case("by-term", "x", 5, 5),
    case("by-placeable", "x", 3, 3),
    case("by-placed-literal", "x", 5, 5),
    case("by-escaped", "x", 2, 2),
    case("by-escaped-wide", "x", 4, 4),
    case("by-wide", "x", 6, 6),
    case("chosen", "M", 5, 5),
    // "3 seen" and its marks; "33" and twice two; a lone placeable has none
    case("by-filled", "x", 6, 12),
    case("by-twice", "x", 2, 14),
    case("by-lone", "x", 3, 3),
    // arguments: minke; whale; both and Ås; ordinal; minke; minke
    case("number-of-message", "NUMBER()", 5, 5),
    case("second", "3", 5, 5),
    case("three", "3", 13, 13),
    case("escaped-option", "3", 7, 7),
    case("term-positional", "whale", 5, 5),
    case("term-named", "a minke whale", 5, 5),
    // minke, whale and two bytes of a literal with two escapes
    case("term-all", "a \\\" whale", 12, 12),
    // AAA of the outer term and BB of the inner one
    case("term-in-term", "[a BB whale]", 5, 5),
    // minke of the argument and "a minke whale", marks around minke
    case("by-called-term", "x", 18, 24),
    // ab of the argument, and "ab!", which is chosen by it
    case("by-choosing-term", "x", 5, 11),
    // the selector minke is gone when the variant's кит is made
    case("freed", "whale", 6, 6),
    // so are the function's arguments
    case("call-freed", "whale", 6, 6),
    // "nr ", a mark, and the argument minke; then "nr 3" and the second mark
    case("by-counted", "x", 8, 11),
    // "in ", a mark, and the selector minke; then "in M."
    case("by-inner", "x", 8, 11),
    // the argument minke, and the one that is being made beside it
    case("beside", "3", 13, 16),
    // four times "ab" and "end"; with marks, four times 5, c and a mark
    case("chain-0", "x", 11, 24),
    // cut short: 99 times 3, the select being the first of 100
    cut_short("by-many", "{many}", 99, 99 * 7),
    cut_short("by-placed-many", "{???}", 99, 99 * 7),
    // "around ", 98 times 3 and {many}, which has no marks as a reference
    cut_short("by-around", "{around}", 7 + 98 + 6, 7 + 98 * 7 + 6),
    // errors: {cycle}, {bare}, {$lost}
    wrong("cycle", "cx", (1, 0), 7),
    wrong("by-bare", "x", (1, 0), 6),
    wrong("by-lost-variable", "x", (1, 0), 7),
    // {nothing}; A and {-nothing}; minke; minke
    wrong("lost", "x", (1, 1), 9),
    wrong("lost-term", "x", (1, 1), 11),
    wrong("lost-call", "x", (0, 1), 5),
    wrong("lost-placeable", "{-nothing}", (1, 1), 5),
];

/// `{ selector -> *[other] x }`
pub fn by(selector: Inline) -> Pattern {
    Pattern::from(select(selector).default("other", "x"))
}

/// A string literal, with its escapes as written.
fn escaped(literal: &str) -> Inline {
    Inline::String(literal.into())
}

fn literal(literal: &str) -> Literal {
    Literal::String(literal.into())
}

/// What the others refer to.
fn parts(builder: ResourceBuilder) -> ResourceBuilder {
    let kind = Pattern::new().text("a ").place(variable("kind"));
    let inner = term_with(
        "named",
        Arguments::new().named("kind", literal("\\u0042\\u0042")),
    );
    let marked = Pattern::new().place(variable("kind")).text("!");
    let chooser = select(variable("kind"))
        .variant("ab", marked)
        .default("other", "x");
    let counted = Arguments::new()
        .positional(variable("n"))
        .positional(message("name"));
    let inner_choice = select(message("name"))
        .variant("minke", "M")
        .default("other", "O");
    builder
        .message("name", "minke")
        .attribute("short", "mk")
        .attribute("choice", by(term("whale")))
        .term("whale", "whale")
        .term("named", kind.text(" whale"))
        .term("holder", Pattern::new().text("[").place(inner).text("]"))
        .term("chooser", Pattern::from(chooser))
        .message("kite", "кит")
        .message("lone", variable("name"))
        .message(
            "twice",
            Pattern::new().place(variable("n")).place(variable("n")),
        )
        .message(
            "counted",
            Pattern::new().text("nr ").place(call("NUMBER", counted)),
        )
        .message(
            "inner",
            Pattern::new().text("in ").place(inner_choice).text("."),
        )
        .message_without_value("bare")
        .attribute("short", "Bare")
}

fn selectors(builder: ResourceBuilder) -> ResourceBuilder {
    let number = call("NUMBER", Arguments::new().positional(variable("n")));
    let chosen = select(message("name"))
        .variant("minke", "M")
        .default("other", "O");
    builder
        .message("plain", "Hello")
        .message("filled", Pattern::new().place(variable("n")).text(" seen"))
        .message(
            "refers",
            Pattern::new()
                .place(message("name"))
                .text(" and ")
                .place(term("whale")),
        )
        .message("by-variable", by(variable("name")))
        .message("by-literal", by(string("minke")))
        .message("by-number", by(number))
        .message("by-none", by(placeable(variable("none"))))
        .message("by-message", by(message("name")))
        .message("by-attribute", by(message_attribute("name", "short")))
        .message("by-term", by(term("whale")))
        .message("by-placeable", by(placeable(variable("name"))))
        .message("by-placed-literal", by(placeable(string("minke"))))
        .message("by-escaped", by(escaped("\\u0041b")))
        .message("by-escaped-wide", by(escaped("\\U01F40B")))
        .message("by-wide", by(message("kite")))
        .message("chosen", Pattern::from(chosen))
        .message("by-filled", by(message("filled")))
        .message("by-twice", by(message("twice")))
        .message("by-lone", by(message("lone")))
}

fn calls(builder: ResourceBuilder) -> ResourceBuilder {
    let number = |arguments: Arguments| Pattern::from(call("NUMBER", arguments));
    let three = || Arguments::new().positional(variable("n"));
    let one = |argument: Inline| Arguments::new().positional(argument);
    let named = |kind: &str| Arguments::new().named("kind", literal(kind));
    let both = three()
        .positional(message("name"))
        .positional(term("whale"))
        .positional(placeable(variable("name")));
    let all = one(message("name"))
        .positional(term("whale"))
        .named("kind", literal("\\\\\\\""));
    builder
        .message("number-of-message", number(one(message("name"))))
        .message("second", number(three().positional(term("whale"))))
        .message("three", number(both))
        .message(
            "plain-option",
            number(three().named("type", literal("ordinal"))),
        )
        .message(
            "escaped-option",
            number(three().named("type", literal("ordin\\u0061l"))),
        )
        .message("term-plain", term_with("named", named("minke")))
        .message("term-positional", term_with("whale", one(message("name"))))
        .message("term-named", term_with("named", named("m\\u0069nke")))
        .message("term-all", term_with("named", all))
        .message(
            "term-in-term",
            term_with("holder", named("\\u0041\\u0041\\u0041")),
        )
        .message(
            "by-called-term",
            by(term_with("named", named("m\\u0069nke"))),
        )
        .message(
            "by-choosing-term",
            by(term_with("chooser", named("\\u0061\\u0062"))),
        )
        .message(
            "beside",
            number(
                three()
                    .positional(message("name"))
                    .positional(message("inner")),
            ),
        )
}

fn nested(builder: ResourceBuilder) -> ResourceBuilder {
    let whale = || term_with("whale", Arguments::new().positional(message("kite")));
    let counted = Arguments::new()
        .positional(variable("n"))
        .positional(message("name"));
    let freed = |selector: Inline| Pattern::from(select(selector).default("other", whale()));
    let builder = (1..5).fold(builder, |builder, n| {
        let next = select(message(format!("chain-{}", n + 1))).default("other", "c");
        builder.message(format!("chain-{n}"), Pattern::new().text("ab").place(next))
    });
    builder
        .message("freed", freed(message("name")))
        .message("call-freed", freed(call("NUMBER", counted)))
        .message("by-counted", by(message("counted")))
        .message("by-inner", by(message("inner")))
        .message("chain-0", by(message("chain-1")))
        .message("chain-5", "end")
}

fn wrongs(builder: ResourceBuilder) -> ResourceBuilder {
    let many = (0..101).fold(Pattern::new(), |p, _| p.place(variable("n")));
    let around = Pattern::new().text("around ").place(message("many"));
    let around = around.text(", which is not written");
    let cycle = select(message("cycle")).default("other", "x");
    let letter = Arguments::new().named("a", literal("\\u0041"));
    let name = || Arguments::new().positional(message("name"));
    builder
        .message("many", many)
        .message("around", around)
        .message("by-many", by(message("many")))
        .message("by-placed-many", by(placeable(message("many"))))
        .message("by-around", by(message("around")))
        .message("cycle", Pattern::new().text("c").place(cycle))
        .message("by-bare", by(message("bare")))
        .message("by-lost-variable", by(placeable(variable("lost"))))
        .message("lost", by(message("nothing")))
        .message("lost-term", by(term_with("nothing", letter)))
        .message("lost-call", by(call("NOTHING", name())))
        .message("lost-placeable", term_with("nothing", name()))
}

/// All of them, and NUMBER.
pub fn bundle(isolating: bool) -> FluentBundle {
    let all = [parts, selectors, calls, nested, wrongs];
    let builder = all
        .into_iter()
        .fold(FluentResource::builder(), |builder, more| more(builder));
    let mut bundle = FluentBundle::new(vec![Locale::En]);
    bundle.set_use_isolating(isolating);
    bundle.add_builtins().expect("NUMBER is new");
    let resource = builder.build().expect("well-formed");
    bundle.add_resource(resource).expect("no id twice");
    bundle
}
