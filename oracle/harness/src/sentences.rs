//! Document 01's "Sentences to reproduce" and "Misreadings", as cases with the
//! answers that it states; S7, its `5.`, is `5` since document 02's Card 3. ⟨ and ⟩
//! stand for U+2068 and U+2069.

use crate::case::{Bundle, Case, Item, Value};
use crate::ftl;
use crate::model::number::literal;

pub struct Sentence {
    pub id: &'static str,
    pub case: Case,
    pub text: String,
    /// The records by name, in order.
    pub errors: &'static [&'static str],
    /// 255 where document 01 states none.
    pub begun: u8,
    pub unfound: u32,
}

/// One resource after the other, NUMBER first; `n` is the one argument.
#[allow(clippy::too_many_arguments)]
fn sentence(
    id: &'static str,
    resources: &[&str],
    message: &str,
    n: Option<&str>,
    text: &str,
    errors: &'static [&'static str],
    begun: u8,
    unfound: u32,
) -> Sentence {
    let mut items = vec![Item::Function("NUMBER".into())];
    for source in resources {
        items.push(Item::Plain(ftl::resource(source)));
    }
    let number = |text: &str| {
        let (value, _) = literal(text.as_bytes()).expect("a number");
        vec![("n".to_string(), Value::Number(value))]
    };
    Sentence {
        id,
        case: Case {
            bundle: Bundle {
                locale: 0,
                isolating: true,
                items,
            },
            message: message.into(),
            attribute: None,
            arguments: n.map_or(Vec::new(), number),
        },
        text: text.replace('⟨', "\u{2068}").replace('⟩', "\u{2069}"),
        errors,
        begun,
        unfound,
    }
}

pub fn sentences() -> Vec<Sentence> {
    let elements = |count: usize| "{ \"w\" }".repeat(count);
    let hundred = &format!("a = {}", elements(100));
    let hundred_and_one = &format!("a = {}", elements(101));
    let w = |count: usize| "w".repeat(count);
    let two = Some("2");
    #[rustfmt::skip]
    let all = vec![
        // Sentences to reproduce.
        sentence("S1", &["a = Hello"], "a", None, "Hello", &[], 0, 0),
        sentence("S2", &["a = { $n } whales"], "a", Some("3"), "⟨3⟩ whales", &[], 1, 0),
        sentence("S2 without n", &["a = { $n } whales"], "a", None, "⟨{$n}⟩ whales", &["variable n"], 1, 0),
        sentence("S3", &["a = { $n }"], "a", None, "{$n}", &["variable n"], 1, 0),
        sentence("S4", &["a = x { a }"], "a", None, "x {a}", &["cyclic"], 1, 0),
        sentence("S5", &["a = { -t } { $n }\n-t = { $n }"], "a", two, "{$n} ⟨2⟩", &[], 3, 0),
        sentence("S6", &["a = { -t }\n-t = { -u }{ $n }\n-u = u"], "a", two, "u⟨2⟩", &[], 3, 0),
        sentence("S7", &["a = { NUMBER(5, minimumFractionDigits: 0) }"], "a", None, "5", &[], 1, 0),
        sentence("S8", &["a = { NUMBER($m) }"], "a", None, "NUMBER()", &["variable m"], 1, 0),
        sentence("S9", &["a = { F() }"], "a", None, "{F()}", &["function F"], 1, 1),
        sentence("S10", &["a = { $n -> [1.0] x *[o] y }"], "a", Some("1"), "y", &[], 1, 0),
        sentence("S11", &[hundred], "a", None, &w(100), &[], 100, 0),
        sentence("S11, 101", &[hundred_and_one], "a", None, &w(100), &["too many"], 101, 0),
        sentence("S12", &[hundred, "b = { a }"], "b", None, &(w(99) + "{a}"), &["too many"], 101, 0),
        sentence("S13", &["foo = x", "-foo = y", "a = { -foo }"], "a", None, "{-foo}", &["term foo"], 1, 0),
        // M1: isolating a lone element, or a direct message, term or string literal.
        sentence("M1 lone", &["a = { $n }"], "a", Some("3"), "3", &[], 1, 0),
        sentence("M1 message", &["a = x { b }\nb = y"], "a", None, "x y", &[], 1, 0),
        sentence("M1 term", &["a = x { -t }\n-t = y"], "a", None, "x y", &[], 1, 0),
        sentence("M1 string", &["a = x { \"y\" }"], "a", None, "x y", &[], 1, 0),
        sentence("M1 number", &["a = x { 5 }"], "a", None, "x ⟨5⟩", &[], 1, 0),
        sentence("M1 function", &["a = x { NUMBER(5) }"], "a", None, "x ⟨5⟩", &[], 1, 0),
        sentence("M1 inline placeable", &["a = x { { \"y\" } }"], "a", None, "x ⟨y⟩", &[], 1, 0),
        sentence("M1 select", &["a = x { 1 -> *[o] { 5 } }"], "a", None, "x ⟨5⟩", &[], 2, 0),
        // M2: outer term arguments are cleared, not restored, after an inner term.
        sentence("M2", &["a = { -t(n: \"1\") }\n-t = { $n }{ -u }{ $n }\n-u = u"], "a", two, "⟨1⟩u⟨2⟩", &[], 4, 0),
        sentence("M2 without n", &["a = { -t(n: \"1\") }\n-t = { $n }{ -u }{ $n }\n-u = u"], "a", None, "⟨1⟩u⟨{$n}⟩", &["variable n"], 4, 0),
        sentence("M2 missing term", &["a = { -t(n: \"1\") }\n-t = { -u }{ $n }"], "a", two, "{-u}⟨2⟩", &["term u"], 3, 1),
        sentence("M2 in an argument", &["a = { -t(n: 1) }\n-t = { NUMBER($n, -u) }{ $n }\n-u = u"], "a", two, "⟨1⟩⟨2⟩", &[], 3, 0),
        // M3: nothing is listed for a missing function in a selector.
        sentence("M3", &["a = { F() -> [x] x *[o] y }"], "a", None, "y", &[], 1, 1),
        sentence("M3 without default", &["a = { F() -> [x] x }"], "a", None, "", &["missing default"], 1, 1),
        // M4: the selector `{ $n }` is text.
        sentence("M4", &["a = { { $n } -> [1] number [one] category *[o] text }"], "a", Some("1"), "text", &[], 1, 0),
        sentence("M4 number", &["a = { $n -> [one] category [1] number *[o] text }"], "a", Some("1"), "category", &[], 1, 0),
        // M5: what is steady under additions by doing nothing is no formatter.
        sentence("M5 first", &["a = { $n } { b }\nb = B"], "a", Some("3"), "⟨3⟩ B", &[], 2, 0),
        sentence("M5 then", &["a = { $n } { b }\nb = B", "b = late\nc = new"], "a", Some("3"), "⟨3⟩ B", &[], 2, 0),
        sentence("M5 stored", &["a = { $n } { b }\nb = B", "b = late\nc = new"], "c", Some("3"), "new", &[], 0, 0),
    ];
    all
}
