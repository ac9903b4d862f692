//! Isolation marks as the crate's users meet them: ship names in other scripts
//! stand inside sentences, the marks around them nest, and a text that is cut
//! short closes what it has opened.
#![forbid(unsafe_code)]

use weszlagyo::isolation::{are_paired, has_marks};
use weszlagyo::syntax::*;
use weszlagyo::*;

/// ⟨ and ⟩ as marks.
fn marks(text: &str) -> String {
    text.replace('⟨', "\u{2068}").replace('⟩', "\u{2069}")
}

/// `seen` has an isolate in an isolate, `fleet` has `seen` in one more; `many` has
/// 100 placeables inside one, so that it is cut short; `said` has a literal.
fn bundle(literal: &str) -> FluentBundle {
    let ship = Pattern::new().text("by ").place(variable("ship"));
    let seen = select(variable("count"))
        .variant("one", "a whale")
        .default("other", ship);
    let hundred = (0..100).fold(Pattern::new(), |pattern, _| pattern.place(variable("ship")));
    let many = select(variable("count")).default("other", hundred);
    let resource = FluentResource::builder()
        .message("seen", Pattern::new().text("Seen ").place(seen).text("."))
        .message(
            "fleet",
            Pattern::new()
                .text("Fleet: ")
                .place(placeable(message("seen"))),
        )
        .message("many", Pattern::new().text("Many: ").place(many).text("."))
        .message(
            "said",
            Pattern::new()
                .text("x")
                .place(Inline::String(literal.into())),
        );
    let mut bundle = FluentBundle::new(vec![Locale::En]);
    bundle.add_builtins().expect("NUMBER is new");
    let resource = resource.build().expect("well-formed");
    bundle.add_resource(resource).expect("no id twice");
    bundle
}

fn arguments(ship: &str) -> FluentArgs<'_> {
    let count = FluentValue::from(2);
    FluentArgs::from_iter([("count", count), ("ship", FluentValue::from(ship))])
}

fn text(bundle: &FluentBundle, id: &str, ship: &str) -> String {
    let args = arguments(ship);
    let done = bundle.format(id, None, Some(&args));
    done.expect("formatted").text
}

const SHIPS: [&str; 4] = ["Витязь", "נח", "سفينة", "\u{2067}נח\u{2066}"];

#[test]
fn names_in_other_scripts() {
    let bundle = bundle("y");
    for ship in SHIPS {
        let seen = marks(&format!("Seen ⟨by ⟨{ship}⟩⟩."));
        assert_eq!(text(&bundle, "seen", ship), seen);
        let fleet = marks(&format!("Fleet: ⟨{seen}⟩"));
        assert_eq!(text(&bundle, "fleet", ship), fleet);
        assert!(are_paired(&seen) && are_paired(&fleet));
        assert_eq!(text(&bundle, "said", ship), "xy");
    }
}

/// The closing marks stand behind the error's text.
#[test]
fn a_text_that_is_cut_short() {
    let bundle = bundle("y");
    for ship in SHIPS {
        let ships = format!("⟨{ship}⟩").repeat(99);
        let wanted = marks(&format!("Many: ⟨{ships}{{$count}}⟩"));
        let many = text(&bundle, "many", ship);
        assert_eq!(many, wanted);
        assert!(are_paired(&many));
    }
}

#[test]
fn a_sheet() {
    let bundle = bundle("y");
    let args = SHIPS.map(arguments);
    let ids = ["seen", "many", "fleet", "said"];
    let parts = ids.iter().zip(&args);
    let parts = parts.map(|(id, args)| (*id, None, Some(args)));
    let mut errors = Vec::new();
    let sheet = bundle.format_sheet(parts, &mut errors).into_owned();
    let texts = ids.iter().zip(SHIPS);
    let alone: String = texts.map(|(id, ship)| text(&bundle, id, ship)).collect();
    assert_eq!(sheet, alone);
    assert!(are_paired(&sheet) && has_marks(&sheet));
    assert_eq!(errors.len(), 1);
}

/// Marks in a name, or in a literal that is written escaped, are the input's: the
/// text has them too.
#[test]
fn marks_in_the_input() {
    let plain = bundle("y");
    assert!(!are_paired(&text(&plain, "seen", "\u{2069}")));
    assert!(!are_paired(&text(&plain, "seen", "x\u{2068}")));
    assert!(!are_paired(&text(&bundle("\\u2069"), "said", "x")));
    assert!(!are_paired(&text(&bundle("\\U002068"), "said", "x")));
    // as many of each, but not in every prefix
    let exchanged = text(&bundle("\\u2069\\u2068"), "said", "x");
    assert_eq!(exchanged, marks("x⟩⟨"));
    assert!(!are_paired(&exchanged));
    // a backslash, and then letters and digits
    assert!(are_paired(&text(&bundle("\\\\u2068"), "said", "x")));
}
