//! Replays the committed vectors against the model, reading them as README.md
//! says; so the files are read by something that did not write them.
#![forbid(unsafe_code)]

mod fields;
mod stdout;

use fields::{cases, Fields};
use harness::large_stack;
use harness::model::arguments::accepted;
use harness::model::effects::Lengths;
use harness::model::number::{literal, Number};
use harness::model::operations;
use harness::model::plural_table;
use harness::model::reader::{self, Given};
use harness::model::sheet::{format_sheet, prepare};

const CATEGORIES: [&str; 6] = ["zero", "one", "two", "few", "many", "other"];

/// Runs every case of a file; gives their number.
fn replay(name: &'static str, one: fn(u8, &mut Fields)) -> usize {
    large_stack(move || {
        let cases = cases(name);
        for (at, whole) in cases.iter().enumerate() {
            let mut case = Fields(whole);
            let operation = case.u8();
            one(operation, &mut case);
            assert!(case.0.is_empty(), "{name}, case {at}: {whole:02x?}");
        }
        cases.len()
    })
}

#[test]
fn numbers() {
    let count = replay("replay/data/numbers.vec", |operation, f| match operation {
        1 => {
            let read = literal(f.str());
            assert_eq!(f.flag(), read.is_some());
            if let Some((decimal, minimum)) = read {
                assert_eq!((f.decimal(), f.minimum()), (decimal, minimum));
            }
        }
        2 => {
            let number = Number::with_minimum(f.decimal(), f.minimum());
            assert_eq!(f.str(), number.text());
        }
        3 => category(f),
        4 => function(f),
        5 => {
            let mut pair = || {
                let mut number = Number::plain(f.decimal());
                f.options(&mut number);
                number
            };
            let (a, b) = (pair(), pair());
            assert_eq!(f.flag(), a.equals(&b));
        }
        6 => {
            let (key, locale, decimal) = (f.str(), f.u8(), f.decimal());
            let ordinal = f.flag();
            let mut number = Number::with_minimum(decimal, f.minimum());
            number.options.ordinal = ordinal;
            assert_eq!(f.flag(), number.category(locale).as_bytes() == key);
        }
        _ => panic!("operation {operation}"),
    });
    assert!(count > 20_000);
}

/// By the conditions, and by the table.
fn category(f: &mut Fields) {
    let (locale, ordinal) = (f.u8(), f.flag());
    let mut number = Number::with_minimum(f.decimal(), f.minimum());
    number.options.ordinal = ordinal;
    let stated = f.u8();
    assert_eq!(CATEGORIES[stated as usize], number.category(locale));
    assert_eq!(stated, plural_table::category(&number, locale));
}

#[test]
fn categories() {
    let count = replay("replay/data/categories.vec", |operation, f| {
        assert_eq!(operation, 3);
        category(f);
    });
    assert!(count > 9_000);
}

fn function(f: &mut Fields) {
    let mut first = match f.u8() {
        2 => Some(Number::with_minimum(f.decimal(), f.minimum())),
        1 => {
            f.str();
            None
        }
        _ => None,
    };
    let mut refused = false;
    for _ in 0..f.u8() {
        let (name, kind, value) = (f.str(), f.u8(), f.str());
        if let Some(number) = &mut first {
            if kind == 1 {
                number.merge_text(name, value);
            } else {
                let (value, _) = literal(value).expect("a literal");
                refused |= number.merge_number(name, value).is_some_and(|n| n > 19);
            }
        }
    }
    match (f.u8(), first) {
        (0, None) => {}
        (17, Some(_)) => assert!(refused),
        (1, Some(number)) => {
            assert!(!refused);
            let mut stated = number.clone();
            f.options(&mut stated);
            let counts = number.options.counts;
            let saturated = counts.map(|c| c.map(|n| n.min(u32::MAX.into())));
            assert_eq!(stated.options.counts, saturated);
            assert_eq!(stated.options.ordinal, number.options.ordinal);
            assert_eq!(stated.options.style, number.options.style);
            assert_eq!(stated.options.display, number.options.display);
            assert_eq!(stated.options.grouping, number.options.grouping);
            let set = number.options.currency.is_some();
            assert_eq!(stated.options.currency.is_some(), set);
            assert_eq!(f.str(), number.text());
        }
        (result, first) => panic!("result {result} of {first:?}"),
    }
}

fn accepts(kind: u8, bytes: &[u8]) -> bool {
    match kind {
        4 => reader::store(bytes).is_some(),
        5 => reader::resource(bytes).is_some(),
        13 => reader::arguments(bytes).is_some(),
        18 => reader::sheet(bytes).is_some(),
        19 => accepted(bytes).is_ok(),
        _ => panic!("kind {kind}"),
    }
}

fn of_image(operation: u8, f: &mut Fields) {
    match operation {
        22 => {
            let answer = accepted(f.blob()).err();
            assert_eq!(f.u8(), answer.unwrap_or(0));
        }
        20 | 21 | 51 => {
            let kind = match operation {
                20 => 4,
                21 => 5,
                _ => 18,
            };
            let fine = accepts(kind, f.blob());
            assert_eq!(f.u8(), if fine { 0 } else { kind });
        }
        23 => {
            let text = reader::unescape(f.str()).expect("well-formed");
            assert_eq!(f.str(), text);
        }
        24 => {
            let arguments = accepted(f.blob()).expect("accepted");
            let name = f.str();
            let held = arguments.into_iter().find(|(n, _)| n == name);
            let found = match f.u8() {
                0 => None,
                1 => Some(Given::Text(f.str().to_vec())),
                2 => Some(Given::Number(f.decimal())),
                3 => Some(Given::None),
                kind => panic!("kind {kind}"),
            };
            assert_eq!(found, held.map(|(_, value)| value));
        }
        25 => damage(f),
        _ => panic!("operation {operation}"),
    }
}

#[test]
fn images() {
    assert!(replay("replay/data/images.vec", of_image) > 2000);
}

#[test]
fn escapes() {
    let count = replay("replay/data/escapes.vec", |operation, f| {
        assert!([21, 23, 25].contains(&operation));
        of_image(operation, f);
    });
    assert!(count > 4000);
}

fn damage(f: &mut Fields) {
    let (kind, base, map) = (f.u8(), f.blob(), f.blob());
    assert!(accepts(kind, base) && base.len() <= 120);
    let mut at = 0;
    let mut next = || {
        at += 1;
        map[(at - 1) / 8] >> (7 - (at - 1) % 8) & 1 == 1
    };
    let mut changed = base.to_vec();
    for position in 0..base.len() {
        for value in 0..=255 {
            if value != base[position] {
                changed[position] = value;
                assert_eq!(next(), accepts(kind, &changed));
            }
        }
        changed[position] = base[position];
    }
    for length in 0..base.len() {
        assert_eq!(next(), accepts(kind, &base[..length]));
    }
    assert_eq!(map.len(), usize::div_ceil(at, 8));
}

fn addition(operation: u8, f: &mut Fields) {
    let refusal = |answer: Result<usize, u8>| answer.err().unwrap_or(0);
    match operation {
        30 => {
            let mut slice = vec![0xAA; f.length()];
            let answer = operations::new(&mut slice, f.u8(), f.u8());
            assert_eq!(f.u8(), refusal(answer.map(|()| 0)));
            assert_eq!(f.blob(), slice);
        }
        31 => {
            let mode = f.u8();
            let mut slice = f.blob().to_vec();
            let image = f.blob();
            let mut list = vec![0xAA; f.length()];
            let lent = (mode == 1).then_some(&mut list[..]);
            let answer = operations::add_resource(&mut slice, image, lent);
            assert_eq!(f.u8(), refusal(answer));
            assert_eq!(f.number(2) as usize, answer.unwrap_or(0));
            assert_eq!((f.blob(), f.blob()), (&slice[..], &list[..]));
        }
        32 => {
            let mut slice = f.blob().to_vec();
            let answer = operations::add_function(&mut slice, f.str(), f.u8());
            assert_eq!(f.u8(), refusal(answer.map(|()| 0)));
            assert_eq!(f.blob(), slice);
        }
        _ => panic!("operation {operation}"),
    }
}

#[test]
fn additions() {
    assert!(replay("replay/data/additions.vec", addition) > 1000);
    assert!(replay("replay/data/figure_additions.vec", addition) >= 1000);
}

fn format(operation: u8, f: &mut Fields) {
    let (store, message) = (f.blob(), f.str());
    let (asked, attribute) = (f.flag(), f.str());
    let arguments = f.blob();
    let lengths = match operation {
        40 => Lengths {
            text: 4096,
            list: 4096,
            workspace: 4096,
        },
        41 => Lengths {
            text: f.length(),
            list: f.length(),
            workspace: f.length(),
        },
        _ => panic!("operation {operation}"),
    };
    let attribute = asked.then_some(attribute);
    let prepared = operations::prepare(store, message, attribute, arguments);
    match (f.u8(), operations::format(&prepared, lengths)) {
        (0, Ok(done)) => {
            assert_eq!((f.blob(), f.blob()), (&done.text[..], &done.list[..]));
            assert_eq!(f.number(2) as usize, done.errors);
            assert_eq!(f.u8(), done.begun);
            assert_eq!(f.length(), done.unfound as usize);
            assert_eq!(f.length(), done.highest);
            f.flag();
        }
        (refusal, answer) => assert_eq!(answer, Err(refusal)),
    }
}

#[test]
fn formats() {
    assert!(replay("replay_formats/data/formats.vec", format) > 2000);
    assert_eq!(replay("replay_formats/data/sentences.vec", format), 34);
}

fn sheet(operation: u8, f: &mut Fields) {
    assert_eq!(operation, 50);
    let (store, image) = (f.blob(), f.blob());
    let mut buffer = || vec![0xAA; f.length()];
    let (mut text, mut list, mut workspace) = (buffer(), buffer(), buffer());
    let prepared = prepare(store, image);
    let answer = format_sheet(&prepared, &mut text, &mut list, &mut workspace);
    let filled = |front: &[u8], length: usize, rest: u8| {
        let mut bytes = front.to_vec();
        bytes.resize(length, rest);
        bytes
    };
    let (front, header, rest) = match (f.u8(), answer) {
        (0, Ok(figures)) => {
            let (front, header) = (f.blob(), f.blob());
            assert_eq!(figures.text, front.len());
            assert_eq!(figures.errors, f.length());
            assert_eq!(figures.begun, f.length());
            assert_eq!(figures.unfound, f.number(4));
            assert_eq!(figures.highest, f.length());
            f.flag();
            assert_eq!(workspace, filled(&[], workspace.len(), 0));
            (front, header, 0xAA)
        }
        (refusal, answer) => {
            assert_eq!(answer, Err(refusal));
            let before = refusal == 4 || refusal == 18 || refusal == 7 && list.len() < 5;
            let rest = if before { 0xAA } else { 0 };
            assert_eq!(workspace, filled(&[], workspace.len(), rest));
            (&[][..], &[][..], rest)
        }
    };
    assert_eq!(text, filled(front, text.len(), rest));
    assert_eq!(list, filled(header, list.len(), rest));
}

#[test]
fn sheets() {
    assert!(replay("replay_formats/data/sheets.vec", sheet) > 1000);
}

fn either(operation: u8, f: &mut Fields) {
    match operation {
        50 => sheet(operation, f),
        _ => format(operation, f),
    }
}

#[test]
fn figures() {
    assert!(replay("replay_formats/data/figures.vec", either) > 1000);
}

#[test]
fn nesting() {
    assert!(replay("replay_formats/data/nesting.vec", either) > 500);
}

#[test]
fn arguments() {
    assert!(replay("replay_formats/data/arguments.vec", either) > 300);
}

#[test]
fn fractions() {
    assert!(replay("replay_formats/data/fractions.vec", either) > 350);
}
