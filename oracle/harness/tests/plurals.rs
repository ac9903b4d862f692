//! Generated formattings and sheets that choose by numbers, and what the model counts
//! of these choices.
#![forbid(unsafe_code)]

use harness::case::{Bundle, Item};
use harness::model::number::Seen;
use harness::model::operations;
use harness::model::plural_table::Choices;
use harness::{encode, ftl};
use harness::{expected, expected_sheet, large_stack, plurals, plurals_sheet};

/// The generated formattings have what they are for, and both sides agree on them.
#[test]
fn generated_formattings() {
    large_stack(|| {
        let mut seen = Seen::default();
        let (mut finished, mut choosing, mut original, mut work) = (0, 0, 0, 0);
        let (mut locales, mut refused) = ([0; 4], [0; 20]);
        for seed in 0..6_000 {
            let case = plurals(seed);
            locales[usize::from(case.bundle.locale)] += 1;
            let e = expected(&case).unwrap_or_else(|d| panic!("seed {seed}: {d}"));
            match &e.answer {
                Err(answer) => refused[usize::from(*answer)] += 1,
                Ok(done) => {
                    let numbers = e.prepared.as_ref().expect("it has effects").numbers;
                    seen.add(numbers);
                    finished += 1;
                    choosing += usize::from(numbers.choices.asked > 0);
                    original += usize::from(e.from_rust);
                    work += usize::from(done.highest > 0);
                }
            }
        }
        let said = format!(
            "{finished} finished, {choosing} choosing, {original} of the Rust, {work} with workspace, {seen:?}, {locales:?}, {refused:?}"
        );
        assert!(finished > 5_500 && choosing > 5_000, "{said}");
        assert!(original > 5_500 && work > 1_000, "{said}");
        assert!(locales.iter().all(|n| *n > 600), "{said}");
        let choices = seen.choices;
        assert!(
            choices.asked > 15_000 && choices.taken * 3 > choices.asked * 2,
            "{said}"
        );
        assert!(seen.selectors > choices.asked, "{said}");
        assert!(choices.ways.iter().all(|n| *n > 1_500), "{said}");
        assert!(choices.categories.iter().all(|n| *n > 150), "{said}");
        for answer in [11, 12, 17] {
            assert!(refused[answer] > 5, "{said}");
        }
    });
}

#[test]
fn generated_sheets() {
    large_stack(|| {
        let mut choices = Choices::default();
        let (mut finished, mut rows) = (0, 0);
        for seed in 0..2_000 {
            let sheet = plurals_sheet(seed);
            let e = expected_sheet(&sheet).unwrap_or_else(|d| panic!("seed {seed}: {d}"));
            rows += sheet.rows.len();
            if e.answer.is_err() {
                continue;
            }
            for message in e.prepared.iter().flatten().flatten() {
                choices.add(&message.numbers.choices);
            }
            finished += 1;
        }
        let said = format!("{finished} finished, {rows} rows, {choices:?}");
        assert!(finished > 1_500 && rows > 10_000, "{said}");
        assert!(choices.asked > 25_000, "{said}");
        assert!(choices.ways.iter().all(|n| *n > 2_500), "{said}");
        assert!(choices.categories.iter().all(|n| *n > 300), "{said}");
    });
}

/// The same seed gives the same, another one something else.
#[test]
fn by_their_seeds() {
    let shown = |seed| format!("{:?} {:?}", plurals(seed), plurals_sheet(seed));
    for seed in 0..50 {
        assert_eq!(shown(seed), shown(seed));
        assert_ne!(shown(seed), shown(seed + 1));
    }
}

/// What the model counts of choices by numbers, on some messages: how many ask for a
/// category and take its variant, the ways, and the categories.
#[test]
fn choices_that_are_seen() {
    let below = [1, 0, 0, 0];
    let from = [0, 1, 0, 0];
    let zeros = [0, 0, 1, 0];
    let fraction = [0, 0, 0, 1];
    let one = [0, 1, 0, 0, 0, 0];
    let other = [0, 0, 0, 0, 0, 1];
    let none = Choices::default();
    let choice = |taken: usize, ways: [usize; 4], categories: [usize; 6]| Choices {
        asked: 1,
        taken,
        ways,
        categories,
    };
    let ordinal = "type: \"ordinal\"";
    for (source, wanted) in [
        ("{ 5 }".to_string(), none),
        ("{ 1 -> [one] x *[o] y }".into(), choice(1, below, one)),
        ("{ 1 -> [x] x *[o] y }".into(), choice(0, below, one)),
        ("{ -1 -> *[other] x [one] y }".into(), choice(1, below, one)),
        ("{ 99 -> *[other] x }".into(), choice(1, below, other)),
        ("{ 100 -> [other] x *[o] y }".into(), choice(1, from, other)),
        ("{ 1.0 -> [one] x *[o] y }".into(), choice(0, zeros, other)),
        (
            "{ 0.5 -> *[o] y [other] x }".into(),
            choice(1, fraction, other),
        ),
        (
            format!("{{ NUMBER(101, {ordinal}) -> *[one] x }}"),
            choice(1, from, one),
        ),
        (
            format!("{{ NUMBER(1.00, {ordinal}, minimumFractionDigits: 0) -> *[one] x }}"),
            choice(1, below, one),
        ),
        (
            format!("{{ NUMBER(1.0, {ordinal}) -> *[one] x }}"),
            choice(1, zeros, one),
        ),
        // an equal number is met before any word, and behind one
        ("{ 1 -> [1] x [one] y *[o] z }".into(), none),
        (
            "{ 1 -> [two] y [1] x *[one] z }".into(),
            choice(0, below, one),
        ),
        // only numbers, and no number at all
        ("{ 1 -> [2] x *[3] y }".into(), none),
        ("{ \"one\" -> *[one] x }".into(), none),
        ("{ { 1 } -> [one] x *[other] y }".into(), none),
    ] {
        let store = encode::store(&Bundle {
            locale: 0,
            isolating: true,
            items: vec![
                Item::Function("NUMBER".into()),
                Item::Plain(ftl::resource(&format!("a = {source}"))),
            ],
        });
        let arguments = encode::arguments(&[]);
        let prepared = operations::prepare(&store, b"a", None, &arguments);
        let choices = prepared.map(|resolution| resolution.numbers.choices);
        assert_eq!(choices.ok(), Some(wanted), "{source}");
    }
}
