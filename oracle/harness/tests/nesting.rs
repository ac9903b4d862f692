//! The texts that were worked out by hand, and generated formattings and sheets:
//! where the input has no mark, every finished text is paired.
#![forbid(unsafe_code)]

use harness::case::{Case, Given, Item, Sheet, Value};
use harness::model::effects::Lengths;
use harness::model::marks::{marks, open_at_the_limit, paired};
use harness::model::premises::{formatting, whole_sheet, Kind, Marked, KINDS};
use harness::nesting::{formattings, sheets, Said};
use harness::{
    encode, expected, expected_sheet, generator, large_stack, marked, marked_sheet, unmarked,
    unmarked_sheet, vectors,
};

/// The text, the input's marks, and whether the text is paired.
fn held(said: &Said, text: &[u8], found: Option<Marked>, what: &str) {
    let found = found.expect("well-formed");
    assert_eq!(String::from_utf8_lossy(text), said.text, "{what}");
    match said.marked {
        None => assert!(found.none(), "{what}"),
        Some(kind) => assert!(found.only(kind), "{what}"),
    }
    assert_eq!(paired(text).is_ok(), said.paired, "{what}");
    assert!(said.paired || said.marked.is_some(), "{what}");
}

#[test]
fn formattings_by_hand() {
    let all = formattings();
    for point in &all {
        let source = format!("{:?}", point.case.bundle.items[1]);
        let e = expected(&point.case).unwrap_or_else(|d| panic!("{source}: {d}"));
        let done = e.answer.as_ref().expect("it finishes");
        let found = formatting(&e.store, &e.arguments);
        held(&point.said, &done.text, found, &source);
        let lengths = Lengths {
            text: done.text.len(),
            list: done.list.len(),
            workspace: done.highest,
        };
        assert_eq!(e.with(lengths).as_ref(), Ok(done), "{source}");
        // The Rust has no text where `???` is written, to the text or for an
        // argument.
        let for_argument = source.contains("NUMBER") && source.contains("\"k\"");
        let unnamed = point.said.text.contains("???") || for_argument;
        assert_eq!(e.from_rust, !unnamed, "{source}");
    }
    let unmarked = all.iter().filter(|point| point.said.marked.is_none());
    assert!(unmarked.count() >= 90 && all.len() >= 130, "{}", all.len());
}

#[test]
fn sheets_by_hand() {
    let all = sheets();
    for point in &all {
        let rows = format!("{:?}", point.sheet.rows);
        let e = expected_sheet(&point.sheet).unwrap_or_else(|d| panic!("{rows}: {d}"));
        let done = e.answer.as_ref().expect("it finishes");
        let found = whole_sheet(&e.store, &e.sheet);
        held(&point.said, &done.text, found, &rows);
    }
    assert!(all.len() >= 28, "{}", all.len());
}

/// How many isolates are open where these are cut short.
#[test]
fn open_isolates_by_hand() {
    let mut counts = [0; 5];
    for point in formattings() {
        let e = expected(&point.case).expect("they agree");
        let resolution = e.prepared.as_ref().expect("it has effects");
        let open = open_at_the_limit(&resolution.effects);
        let begun = e.answer.as_ref().expect("it finishes").begun;
        assert_eq!(open.is_some(), begun == 101);
        if let (Some(open), None) = (open, point.said.marked) {
            counts[open.min(4)] += 1;
        }
    }
    // Without isolation or around a direct reference none, then as the table has
    // them.
    assert_eq!(counts, [5, 10, 5, 1, 1]);
}

/// The unmarked cases finish, nest and are cut short often enough to tell.
#[test]
fn generated_formattings_are_paired() {
    large_stack(|| {
        let (mut finished, mut nested, mut cut, mut inside) = (0, 0, 0, 0);
        for seed in 0..20_000 {
            let e = expected(&unmarked(seed)).unwrap_or_else(|d| panic!("seed {seed}: {d}"));
            let (Ok(done), Ok(resolution)) = (&e.answer, &e.prepared) else {
                continue;
            };
            let marks = paired(&done.text).unwrap_or_else(|d| panic!("seed {seed}: {d}"));
            finished += 1;
            nested += usize::from(marks.deepest > 1);
            let open = open_at_the_limit(&resolution.effects);
            assert_eq!(open.is_some(), done.begun == 101);
            cut += usize::from(open.is_some());
            inside += usize::from(open.is_some_and(|open| open > 0));
        }
        let said = format!(
            "{finished} finished, {nested} nested, {cut} cut short, {inside} inside an isolate"
        );
        assert!(finished > 19_000 && nested > 7_000, "{said}");
        assert!(cut > 4_000 && inside > 3_000, "{said}");
    });
}

#[test]
fn generated_sheets_are_paired() {
    large_stack(|| {
        let (mut finished, mut nested, mut rows) = (0, 0, 0);
        for seed in 0..3_000 {
            let sheet = unmarked_sheet(seed);
            let e = expected_sheet(&sheet).unwrap_or_else(|d| panic!("seed {seed}: {d}"));
            let Ok(done) = &e.answer else { continue };
            let marks = paired(&done.text).unwrap_or_else(|d| panic!("seed {seed}: {d}"));
            finished += 1;
            rows += sheet.rows.len();
            nested += usize::from(marks.deepest > 1);
        }
        assert!(finished > 2_700 && nested > 1_200, "{finished}, {nested}");
        assert!(rows > 5 * finished, "{rows}");
    });
}

/// With a mark of any one kind the same texts are often unpaired.
#[test]
fn marks_in_the_input_are_noticed() {
    large_stack(|| {
        for kind in KINDS {
            let unpaired = |text: &[u8]| !marks(text).expect("it is text").paired();
            let cases = (0..1_000).filter(|seed| {
                let e = expected(&marked(*seed, kind)).expect("they agree");
                e.answer.is_ok_and(|done| unpaired(&done.text))
            });
            let sheets = (0..300).filter(|seed| {
                let e = expected_sheet(&marked_sheet(*seed, kind)).expect("they agree");
                e.answer.is_ok_and(|done| unpaired(&done.text))
            });
            let (cases, sheets) = (cases.count(), sheets.count());
            assert!(cases > 100 && sheets > 30, "{kind:?}: {cases}, {sheets}");
        }
    });
}

/// The other generator's cases, too, where the model finds no mark in them.
#[test]
fn other_cases_without_marks_are_paired() {
    large_stack(|| {
        let (mut kept, mut left) = (0, 0);
        for seed in 900_000..910_000 {
            let e = expected(&generator(seed)).expect("they agree");
            let found = formatting(&e.store, &e.arguments).expect("well-formed");
            match (&e.answer, found.none()) {
                (Ok(done), true) => {
                    paired(&done.text).unwrap_or_else(|d| panic!("seed {seed}: {d}"));
                    kept += 1;
                }
                _ => left += 1,
            }
        }
        assert!(kept > 1_000, "{kept} kept, {left} left out");
    });
}

fn all_texts(item: &Item) -> String {
    match item {
        Item::Plain(tree) | Item::Overriding(tree) => format!("{tree:?}"),
        Item::Function(id) => id.clone(),
    }
}

/// The generator reaches what it is for: names in other scripts, and what is near
/// to a mark, in text elements, literals and arguments.
#[test]
fn words_of_unmarked_cases() {
    let cases: Vec<Case> = (0..3_000).map(unmarked).collect();
    let sheets: Vec<Sheet> = (0..300).map(unmarked_sheet).collect();
    let items = cases.iter().flat_map(|case| &case.bundle.items);
    let all: String = items.map(all_texts).collect();
    for word in [
        "Витязь",
        "נח",
        "سفينة",
        "\\u{2067}",
        "\\u{202e}",
        "\\u{206a}",
        "\\\\u2067",
        "\\\\uD800",
        "\\\\\\\\u2068",
        "\\\\UE281A8",
        "\\u{20e8}",
    ] {
        assert!(all.contains(word), "{word}");
    }
    assert!(!all.contains("\\u{2068}") && !all.contains("\\u{2069}"));
    let texts = |values: &[(String, Value)]| {
        let texts = values.iter().filter(|(_, v)| matches!(v, Value::Text(_)));
        texts.count()
    };
    let given: usize = cases.iter().map(|case| texts(&case.arguments)).sum();
    let rows = sheets.iter().flat_map(|sheet| &sheet.rows);
    let more = rows.map(|row| match &row.arguments {
        Given::Values(values) => texts(values),
        Given::Bytes(bytes) => panic!("{bytes:?}"),
    });
    assert!(given > 1_000 && more.sum::<usize>() > 500, "{given}");
    let isolating = cases.iter().filter(|case| case.bundle.isolating).count();
    assert!(isolating > 2_600 && isolating < 3_000, "{isolating}");
}

#[test]
fn marked_cases_have_marks_of_one_kind() {
    for seed in 0..300 {
        for kind in KINDS {
            let case = marked(seed, kind);
            let arguments = encode::arguments(&case.arguments);
            let found = formatting(&encode::store(&case.bundle), &arguments);
            assert!(found.is_some_and(|found| found.only(kind)), "{seed}");
            let others = KINDS.iter().filter(|other| **other != kind);
            assert!(others.map(|other| found.unwrap().of(*other)).sum::<usize>() == 0);
        }
    }
    let literal = marked(1, Kind::Literal);
    assert_eq!(
        format!("{literal:?}"),
        format!("{:?}", marked(1, Kind::Literal))
    );
}

/// Making the file compares the model with the Rust, and holds every text of an
/// unmarked input to being paired.
#[test]
fn other_seeds() {
    large_stack(|| {
        for seed in 100..102 {
            let file = vectors::nesting::make(seed, 1200);
            assert!(file.count() > 300, "{}", file.count());
        }
    });
}
