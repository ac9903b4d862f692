//! Sheets as the crate's users meet them: built, formatted in one call, and
//! held against their messages formatted one by one.
#![forbid(unsafe_code)]

use weszlagyo::operations::{self, Figures};
use weszlagyo::syntax::*;
use weszlagyo::*;

/// The most bytes of a sheet image, and of an arguments image.
const MAX_SHEET: usize = 1_048_576;
const MAX_ARGUMENTS: usize = 65_536;

/// A message of a sheet.
type Part<'a> = (&'a str, Option<&'a str>, Option<&'a FluentArgs<'a>>);

/// Counts, an attribute, a text that goes through the workspace, errors of three
/// kinds, a message without a value, and 101 placeables.
fn bundle() -> FluentBundle {
    let seen = Pattern::new().place(variable("count")).text(" seen. ");
    let chosen = select(placeable(Expression::Inline(message("title"))))
        .variant("whale", "a whale")
        .default("other", Pattern::new().place(message("seen")));
    let many = (0..101).fold(Pattern::new(), |pattern, _| {
        pattern.place(variable("count"))
    });
    let digits = Arguments::new()
        .positional(variable("count"))
        .named("minimumFractionDigits", Literal::Number("20".into()));
    let resource = FluentResource::builder()
        .message("title", "Sheet. ")
        .message("seen", seen)
        .attribute("short", Pattern::new().place(variable("count")))
        .message("chosen", Pattern::from(chosen))
        .message("lost", Pattern::new().place(message("nowhere")))
        .message("cycle", Pattern::new().text("c").place(message("cycle")))
        .message("many", many)
        .message("digits", Pattern::new().place(call("NUMBER", digits)))
        .message_without_value("bare")
        .attribute("short", "Bare. ");
    let mut bundle = FluentBundle::new(vec![Locale::En]);
    bundle.add_builtins().expect("NUMBER is new");
    let resource = resource.build().expect("well-formed");
    bundle.add_resource(resource).expect("no id twice");
    bundle
}

fn count(n: u32) -> FluentArgs<'static> {
    FluentArgs::from_iter([("count", n)])
}

fn sheet(parts: &[Part]) -> Sheet {
    let mut sheet = Sheet::new();
    for (id, attribute, args) in parts {
        sheet.push(id, *attribute, *args).expect("it fits");
    }
    sheet
}

/// The parts formatted one by one: texts and errors joined, the figures added
/// up, the largest workspace.
fn one_by_one(bundle: &FluentBundle, parts: &[Part]) -> Result<Formatted, Refusal> {
    let mut all = Formatted {
        text: String::new(),
        errors: Vec::new(),
        figures: Figures::default(),
    };
    for (id, attribute, args) in parts {
        let one = bundle.format(id, *attribute, *args)?;
        all.text.push_str(&one.text);
        all.errors.extend(one.errors);
        all.figures.text += one.figures.text;
        all.figures.errors += one.figures.errors;
        all.figures.begun += one.figures.begun;
        all.figures.unfound += one.figures.unfound;
        all.figures.work = all.figures.work.max(one.figures.work);
    }
    Ok(all)
}

/// The parts in one call, by either way of the crate.
fn in_one_call(bundle: &FluentBundle, parts: &[Part]) -> Result<Formatted, Refusal> {
    let mut buffers = Buffers::with_lengths(0, 0, 0);
    let answer = bundle.format_sheet_in(&mut buffers, &sheet(parts));
    let mut errors = vec![];
    let text = bundle.format_sheet(parts.iter().copied(), &mut errors);
    match answer {
        Ok(figures) => {
            assert_eq!(text, buffers.text(figures));
            assert_eq!(errors, buffers.errors(figures));
            Ok(Formatted {
                text: text.into_owned(),
                errors,
                figures,
            })
        }
        Err(refusal) => {
            assert_eq!((&*text, errors), ("", vec![refusal.into()]));
            Err(refusal)
        }
    }
}

#[test]
fn no_message_at_all() {
    assert_eq!(Sheet::new().image(), [0, 0, 0, 7, 1, 0, 0]);
    assert!(Sheet::default().is_empty());
    let done = in_one_call(&bundle(), &[]).expect("formatted");
    assert_eq!((done.text.as_str(), done.errors.len()), ("", 0));
    assert_eq!(done.figures, Figures::default());
    let (mut text, mut list, mut work) = ([7; 3], [7; 8], [7; 2]);
    let image = Sheet::new();
    let figures = operations::format_sheet(
        bundle().store(),
        image.image(),
        &mut text,
        &mut list,
        &mut work,
    );
    assert_eq!(figures, Ok(Figures::default()));
    assert_eq!((text, work), ([7; 3], [0; 2]));
    assert_eq!(list, [0, 0, 0, 5, 1, 7, 7, 7]);
}

#[test]
fn document_02_s_image() {
    let three = count(3);
    let image = [
        [0, 0, 0, 60, 1, 0, 2].as_slice(),
        &[0, 4, b's', b'e', b'e', b'n', 0],
        &[0, 0, 0, 25, 1, 0, 1, 0, 5],
        b"count",
        &[2, 0, 0, 0, 0, 0, 0, 0, 0, 3, 0],
        &[0, 4, b's', b'e', b'e', b'n', 1, 0, 5],
        b"short",
        &[0, 0, 0, 7, 1, 0, 0],
    ];
    let image = image.concat();
    let built = sheet(&[("seen", None, Some(&three)), ("seen", Some("short"), None)]);
    assert_eq!(image.len(), usize::from(image[3]));
    assert_eq!((built.image(), built.len()), (image.as_slice(), 2));
}

#[test]
fn a_sheet_is_its_messages_joined() {
    let bundle = bundle();
    let all: Vec<FluentArgs> = (0..30).map(count).collect();
    let kinds: [(&str, Option<&str>); 6] = [
        ("title", None),
        ("seen", None),
        ("seen", Some("short")),
        ("chosen", None),
        ("lost", None),
        ("bare", Some("short")),
    ];
    let parts: Vec<Part> = all
        .iter()
        .zip(kinds.iter().cycle())
        .map(|(args, (id, attribute))| (*id, *attribute, Some(args)))
        .collect();
    for length in 0..=30 {
        let parts = &parts[..length];
        let done = in_one_call(&bundle, parts).expect("formatted");
        assert_eq!(Ok(&done), one_by_one(&bundle, parts).as_ref());
        assert_eq!(done.errors.len(), done.figures.errors);
    }
    let done = in_one_call(&bundle, &parts).expect("formatted");
    assert_eq!((done.figures.unfound, done.figures.work), (5, 7));
    assert!(done.text.starts_with("Sheet. \u{2068}1\u{2069} seen. 2"));
}

#[test]
fn errors_stand_in_the_order_of_the_messages() {
    let (bundle, three) = (bundle(), count(3));
    let parts: [Part; 5] = [
        ("seen", None, None),
        ("cycle", None, None),
        ("seen", None, Some(&three)),
        ("lost", None, None),
        ("many", None, Some(&three)),
    ];
    let done = in_one_call(&bundle, &parts).expect("formatted");
    let said: Vec<String> = done.errors.iter().map(ToString::to_string).collect();
    assert_eq!(
        said,
        [
            "Resolver error: Unknown variable: $count",
            "Resolver error: Cyclical dependency detected",
            "Resolver error: Unknown message: nowhere",
            "Resolver error: Too many placeables",
        ]
    );
}

/// The limit of 100 placeables is each message's own.
#[test]
fn placeables_are_counted_for_each_message() {
    let (bundle, three) = (bundle(), count(3));
    let parts: [Part; 2] = [("many", None, Some(&three)); 2];
    let done = in_one_call(&bundle, &parts).expect("formatted");
    assert_eq!(done.figures.begun, 202);
    assert_eq!(
        done.errors,
        vec![ResolverError::TooManyPlaceables.into(); 2]
    );
    let parts: [Part; 120] = [("seen", None, Some(&three)); 120];
    let done = in_one_call(&bundle, &parts).expect("formatted");
    assert_eq!((done.figures.begun, done.errors.len()), (120, 0));
}

#[test]
fn the_first_refusal_of_a_message_is_the_sheet_s() {
    let (bundle, three) = (bundle(), count(3));
    let bad = FluentArgs::from_iter([("no id", 1)]);
    let refused: [(Part, Refusal); 5] = [
        (("nothing", None, None), Refusal::NO_MESSAGE),
        (("bare", None, None), Refusal::NO_PATTERN),
        (("seen", Some("long"), None), Refusal::NO_PATTERN),
        (("seen", None, Some(&bad)), Refusal::MALFORMED_ARGUMENTS),
        (("digits", None, Some(&three)), Refusal::MANY_DIGITS),
    ];
    for (part, refusal) in refused {
        for before in 0..3 {
            let mut parts: Vec<Part> = vec![("seen", None, Some(&three)); before];
            // and what would be refused for something else comes too late
            parts.extend([part, ("title", None, None), ("nothing", Some("x"), None)]);
            assert_eq!(in_one_call(&bundle, &parts), Err(refusal));
            assert_eq!(one_by_one(&bundle, &parts), Err(refusal));
            let image = sheet(&parts);
            let (mut text, mut list, mut work) = ([7; 99], [7; 99], [7; 99]);
            let answer = operations::format_sheet(
                bundle.store(),
                image.image(),
                &mut text,
                &mut list,
                &mut work,
            );
            assert_eq!(answer, Err(refusal));
            assert_eq!((text, list, work), ([0; 99], [0; 99], [0; 99]));
        }
    }
}

/// 4, then 18, then 7 for a list under 5 bytes, whatever the messages are, and
/// nothing is changed.
#[test]
fn refusals_before_any_message() {
    let bundle = bundle();
    let (store, no_store) = (bundle.store(), b"no store".as_slice());
    let lost = sheet(&[("nothing", None, None)]);
    let cut = &lost.image()[..lost.image().len() - 1];
    for (store, image, list_length, refusal) in [
        (no_store, cut, 4, Refusal::MALFORMED_STORE),
        (no_store, lost.image(), 99, Refusal::MALFORMED_STORE),
        (store, cut, 4, Refusal::MALFORMED_SHEET),
        (store, cut, 99, Refusal::MALFORMED_SHEET),
        (store, b"".as_slice(), 99, Refusal::MALFORMED_SHEET),
        (store, lost.image(), 4, Refusal::SHORT_LIST),
    ] {
        let (mut text, mut list, mut work) = ([7; 99], vec![7; list_length], [7; 99]);
        let answer = operations::format_sheet(store, image, &mut text, &mut list, &mut work);
        assert_eq!(answer, Err(refusal));
        assert_eq!((text, work), ([7; 99], [7; 99]));
        assert_eq!(list, vec![7; list_length]);
    }
}

/// Buffers of just the needed lengths do, and none can be a byte shorter.
#[test]
fn buffers_that_just_fit() {
    let (bundle, three) = (bundle(), count(3));
    let parts: [Part; 4] = [
        ("chosen", None, Some(&three)),
        ("seen", None, None),
        ("title", None, None),
        ("lost", None, None),
    ];
    let image = sheet(&parts);
    let needed = one_by_one(&bundle, &parts).expect("formatted");
    let mut list = vec![7; 99];
    let format = |text: usize, list: &mut [u8], work: usize| {
        let (mut text, mut work) = (vec![7; text], vec![7; work]);
        let answer =
            operations::format_sheet(bundle.store(), image.image(), &mut text, list, &mut work);
        answer.map(|_| text)
    };
    let (text, work) = (needed.figures.text, needed.figures.work);
    let done = format(text, &mut list, work).expect("it fits");
    assert_eq!(done, needed.text.as_bytes());
    let records = usize::from(list[3]);
    assert_eq!(operations::read_list(&list), needed.errors);
    assert_eq!(list[records..], [7; 99][records..]);
    let short = |text, list: usize, work| format(text, &mut vec![7; list], work).err();
    assert_eq!(short(text, records, work), None);
    assert_eq!(short(text - 1, records, work), Some(Refusal::SHORT_TEXT));
    assert_eq!(short(text, records - 1, work), Some(Refusal::SHORT_LIST));
    assert_eq!(
        short(text, records, work - 1),
        Some(Refusal::SHORT_WORKSPACE)
    );
}

#[test]
fn ids_that_a_sheet_can_not_have() {
    let mut sheet = Sheet::new();
    for bad in ["", "9", "é", "a b", &"a".repeat(256)] {
        assert_eq!(sheet.push(bad, None, None), Err(Refusal::NO_ID));
        assert_eq!(sheet.push("a", Some(bad), None), Err(Refusal::NO_ID));
    }
    assert_eq!(sheet, Sheet::new());
    let longest = "a".repeat(255);
    assert_eq!(sheet.push(&longest, Some(&longest), None), Ok(()));
    let (bundle, mut errors) = (bundle(), vec![]);
    let text = bundle.format_sheet([("no id", None, None)], &mut errors);
    assert_eq!((&*text, errors), ("", vec![Refusal::NO_ID.into()]));
}

#[test]
fn arguments_that_a_sheet_can_not_have() {
    let bundle = bundle();
    // 7 bytes, and of the one argument 2, 5, 1, 2 and the text
    let text = |length: usize| FluentArgs::from_iter([("count", "x".repeat(length - 17))]);
    let (most, more) = (text(MAX_ARGUMENTS), text(MAX_ARGUMENTS + 1));
    let done = in_one_call(&bundle, &[("seen", Some("short"), Some(&most))]);
    assert_eq!(done.expect("it fits").text.len(), MAX_ARGUMENTS - 17);
    let refused = Err(Refusal::MALFORMED_ARGUMENTS);
    let mut sheet = Sheet::new();
    assert_eq!(sheet.push("seen", None, Some(&more)), refused);
    for bad in [
        [].as_slice(),
        &[0, 0, 0, 6, 1, 0],
        &[0, 0, 0, 8, 1, 0, 0],
        &[0, 0, 0, 6, 1, 0, 0],
        &vec![0; MAX_ARGUMENTS],
    ] {
        assert_eq!(sheet.push_image("seen", None, bad), refused);
    }
    assert_eq!(sheet, Sheet::new());
    // what is wrong inside is the message's
    let inside = [0, 0, 0, 8, 2, 0, 0, 0];
    assert_eq!(sheet.push_image("seen", None, &inside), Ok(()));
    let answer = bundle.format_sheet_in(&mut Buffers::default(), &sheet);
    assert_eq!(answer, Err(Refusal::MALFORMED_ARGUMENTS));
}

#[test]
fn a_sheet_of_the_most_messages() {
    let bundle = bundle();
    let mut sheet = Sheet::new();
    for _ in 0..65_535 {
        sheet.push("title", None, None).expect("it fits");
    }
    let before = sheet.image().to_vec();
    let refused = sheet.push("title", None, None);
    assert_eq!(refused, Err(Refusal::MALFORMED_SHEET));
    assert_eq!((sheet.image(), sheet.len()), (before.as_slice(), 65_535));
    let mut buffers = Buffers::default();
    let figures = bundle.format_sheet_in(&mut buffers, &sheet);
    let figures = figures.expect("formatted");
    assert_eq!(buffers.text(figures), "Sheet. ".repeat(65_535));
}

#[test]
fn a_sheet_of_the_most_bytes() {
    let bundle = bundle();
    // 8 bytes for the id and the Flag, and the arguments
    let message = |length: usize| FluentArgs::from_iter([("count", "x".repeat(length - 25))]);
    let mut sheet = Sheet::new();
    for _ in 0..16 {
        sheet
            .push("title", None, Some(&message(65_500)))
            .expect("it fits");
    }
    let left = MAX_SHEET - sheet.image().len();
    let before = sheet.clone();
    let refused = sheet.push("title", None, Some(&message(left + 1)));
    assert_eq!((refused, &sheet), (Err(Refusal::MALFORMED_SHEET), &before));
    sheet
        .push("title", None, Some(&message(left)))
        .expect("it fits");
    assert_eq!(sheet.image().len(), MAX_SHEET);
    let figures = bundle.format_sheet_in(&mut Buffers::default(), &sheet);
    assert_eq!(figures.expect("formatted").text, 17 * "Sheet. ".len());
}
