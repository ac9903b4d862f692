//! The dot of a number, which stands only where digits follow it (document 02's Card
//! 3): texts, figures and answers that were worked out by hand, and generated
//! formattings and sheets.
#![forbid(unsafe_code)]

use harness::case::{Bundle, Item};
use harness::encode;
use harness::fractions::{changed, formattings, lent, lent_sheets, sheets, Part};
use harness::ftl;
use harness::model::effects::Lengths;
use harness::model::number::{Decimal, Number, Seen};
use harness::model::operations;
use harness::model::sheet::{format_sheet, join, Refused};
use harness::model::workspace::{self, is_exact};
use harness::{expected, expected_sheet, fractions, fractions_sheet, large_stack, vectors};

fn text_of(digits: u64, scale: u8, minimum: Option<u64>) -> String {
    let value = Decimal {
        negative: false,
        digits,
        scale,
    };
    let text = Number::with_minimum(value, minimum).text();
    String::from_utf8(text).expect("it is text")
}

/// Every scale and minimum of some digits: a dot exactly where a fraction or a minimum
/// above 0 puts digits behind it.
#[test]
fn a_dot_only_before_digits() {
    let (mut without, mut with) = (0, 0);
    for digits in [0, 5, 10, 50, 105, 1_000_000, 999_999_999_999_999] {
        for scale in 0..15 {
            for minimum in std::iter::once(None).chain((0..20).map(Some)) {
                let text = text_of(digits, scale, minimum);
                let shortest = text_of(digits, scale, None);
                let places = shortest.split_once('.').map_or(0, |(_, f)| f.len() as u64);
                let wanted = places.max(minimum.unwrap_or(0));
                match text.split_once('.') {
                    Some((_, fraction)) => {
                        assert_eq!(fraction.len() as u64, wanted, "{text}");
                        assert!(wanted > 0, "{text}");
                        with += 1;
                    }
                    None => {
                        assert_eq!(wanted, 0, "{text}");
                        without += 1;
                    }
                }
                assert!(text.starts_with(&shortest), "{text}");
            }
        }
    }
    assert!(without > 50 && with > 1_000, "{without}, {with}");
    assert_eq!(text_of(5, 0, Some(0)), "5");
    assert_eq!(text_of(50, 1, Some(0)), "5");
    assert_eq!(text_of(5, 1, Some(0)), "0.5");
    assert_eq!(text_of(5, 0, Some(1)), "5.0");
    assert_eq!(text_of(100, 0, Some(0)), "100");
}

/// Text and figure as they were worked out; with buffers that just fit it finishes, and
/// with one byte less of one it does not.
#[test]
fn formattings_by_hand() {
    let all = formattings();
    let (mut losing, mut cut) = (0, 0);
    for point in &all {
        let source = format!("{:?}", point.case.bundle.items[1]);
        let e = expected(&point.case).unwrap_or_else(|d| panic!("{source}: {d}"));
        let done = e.answer.as_ref().expect("it finishes");
        let text = String::from_utf8_lossy(&done.text);
        assert_eq!(text, point.text, "{source}");
        assert_eq!(done.highest, point.figure, "{source}");
        assert_eq!(done.begun == 101, point.cut, "{source}");
        assert_eq!(e.from_rust, !text.contains("???"), "{source}");
        let need = e.need().expect("it finishes");
        assert_eq!(e.with(need).as_ref(), Ok(done), "{source}");
        let (text, list) = (need.text - 1, need.list - 1);
        assert_eq!(e.with(Lengths { text, ..need }), Err(15), "{source}");
        assert_eq!(e.with(Lengths { list, ..need }), Err(7), "{source}");
        if let Some(workspace) = need.workspace.checked_sub(1) {
            assert_eq!(e.with(Lengths { workspace, ..need }), Err(16), "{source}");
        }
        let resolution = e.prepared.as_ref().expect("it has effects");
        let with = |length| workspace::formatting(resolution, length);
        assert!(is_exact(point.figure, with), "{source}");
        losing += usize::from(resolution.numbers.texts_losing_dot > 0);
        cut += usize::from(point.cut);
    }
    assert!(all.len() >= 200, "{}", all.len());
    assert!(losing > 100 && cut == 8, "{losing}, {cut}");
}

#[test]
fn lent_lengths_by_hand() {
    let mut seen = [0; 20];
    for call in lent() {
        let e = expected(&call.case).expect("they agree");
        let answer = e.with(call.lengths).err().unwrap_or(0);
        let source = &call.case.bundle.items[1];
        assert_eq!(answer, call.answer, "{source:?} {:?}", call.lengths);
        seen[usize::from(answer)] += 1;
    }
    assert!([0, 7, 15, 16, 17].iter().all(|n| seen[*n] > 3), "{seen:?}");
}

#[test]
fn sheets_by_hand() {
    let all = sheets();
    let mut refused = 0;
    for point in &all {
        let rows = format!("{:?}", point.sheet.rows);
        let e = expected_sheet(&point.sheet).unwrap_or_else(|d| panic!("{rows}: {d}"));
        match (&e.answer, &point.said) {
            (Ok(done), Ok((text, figure))) => {
                assert_eq!(String::from_utf8_lossy(&done.text), *text, "{rows}");
                assert_eq!(done.figures.highest, *figure, "{rows}");
                let with = |length| workspace::sheet(&e.prepared, length).expect("effects");
                assert!(is_exact(*figure, with), "{rows}");
                assert!(e.from_rust, "{rows}");
            }
            (answer, said) => {
                let number = said.as_ref().err().copied();
                let cleared = number.map(Refused::Cleared);
                assert_eq!(answer.as_ref().err(), cleared.as_ref(), "{rows}");
                refused += 1;
            }
        }
    }
    assert!(all.len() >= 40 && refused == 10, "{} {refused}", all.len());
}

/// The answers, and what a refusal leaves.
#[test]
fn lent_sheets_by_hand() {
    let mut seen = [0; 20];
    for call in lent_sheets() {
        let e = expected_sheet(&call.sheet).expect("they agree");
        let l = call.lengths;
        let [mut text, mut list, mut work] = [l.text, l.list, l.workspace].map(|n| vec![0xAA; n]);
        let answer = format_sheet(&e.prepared, &mut text, &mut list, &mut work);
        let number = answer.err().unwrap_or(0);
        assert_eq!(number, call.answer, "{:?} {l:?}", call.sheet.rows);
        seen[usize::from(number)] += 1;
        let all = [text, list, work].concat();
        match number {
            0 => assert_eq!(
                join(&e.prepared, l).expect("it finishes").text,
                all[..l.text]
            ),
            7 if l.list < 5 => assert!(all.iter().all(|b| *b == 0xAA)),
            _ => assert!(all.iter().all(|b| *b == 0)),
        }
    }
    assert!([0, 7, 15, 16, 17].iter().all(|n| seen[*n] > 1), "{seen:?}");
}

#[test]
fn changed_bytes_by_hand() {
    let (mut stores, mut arguments) = (0, 0);
    for call in changed() {
        let prepared = operations::prepare(&call.store, b"a", None, &call.arguments);
        let answer = operations::format(&prepared, Lengths::AMPLE);
        let text = answer.map(|done| String::from_utf8(done.text).expect("text"));
        assert_eq!(text, call.said.map(String::from), "{:02x?}", call.store);
        match call.part {
            Part::Store => stores += 1,
            Part::Arguments => arguments += 1,
        }
    }
    assert!(stores > 20 && arguments > 10, "{stores} {arguments}");
}

/// Every other value of every byte of a store: what is still well-formed is written
/// without a dot at its end, whatever number and minimum it has then.
#[test]
fn every_change_of_a_store() {
    let call = &changed()[0];
    let (mut finished, mut refused) = (0, 0);
    for at in 0..call.store.len() {
        for value in 0..=255 {
            let mut store = call.store.clone();
            store[at] = value;
            let prepared = operations::prepare(&store, b"a", None, &call.arguments);
            match operations::format(&prepared, Lengths::AMPLE) {
                Ok(done) => {
                    assert!(!done.text.ends_with(b"."), "{at} {value}");
                    finished += 1;
                }
                Err(answer) => {
                    assert!([4, 11, 12, 17].contains(&answer), "{at} {value}: {answer}");
                    refused += 1;
                }
            }
        }
    }
    assert!(finished > 500 && refused > 5_000, "{finished} {refused}");
}

/// The generated formattings have what they are for, and both sides agree on them.
#[test]
fn generated_formattings() {
    large_stack(|| {
        let mut seen = Seen::default();
        let (mut finished, mut losing, mut original, mut cut, mut work) = (0, 0, 0, 0, 0);
        let mut refused = [0; 20];
        for seed in 0..6_000 {
            let case = fractions(seed);
            let e = expected(&case).unwrap_or_else(|d| panic!("seed {seed}: {d}"));
            match &e.answer {
                Err(answer) => refused[usize::from(*answer)] += 1,
                Ok(done) => {
                    let numbers = e.prepared.as_ref().expect("it has effects").numbers;
                    seen.add(numbers);
                    finished += 1;
                    losing += usize::from(numbers.texts_losing_dot > 0);
                    original += usize::from(e.from_rust);
                    cut += usize::from(done.begun == 101);
                    work += usize::from(done.highest > 0);
                }
            }
        }
        let said = format!(
            "{finished} finished, {losing} losing a dot, {original} of the Rust, {cut} cut short, {work} with workspace, {seen:?}, {refused:?}"
        );
        assert!(finished > 5_000 && losing > 3_000, "{said}");
        assert!(original > 4_500 && cut > 50 && work > 1_500, "{said}");
        assert!(seen.texts_losing_dot * 5 > seen.texts * 2, "{said}");
        assert!(seen.texts > seen.texts_losing_dot + 3_000, "{said}");
        assert!(seen.selectors_losing_dot > 500, "{said}");
        assert!(seen.selectors > seen.selectors_losing_dot + 200, "{said}");
        for answer in [11, 12, 17] {
            assert!(refused[answer] > 20, "{said}");
        }
    });
}

#[test]
fn generated_sheets() {
    large_stack(|| {
        let mut seen = Seen::default();
        let (mut finished, mut losing, mut rows) = (0, 0, 0);
        for seed in 0..2_000 {
            let sheet = fractions_sheet(seed);
            let e = expected_sheet(&sheet).unwrap_or_else(|d| panic!("seed {seed}: {d}"));
            rows += sheet.rows.len();
            if e.answer.is_err() {
                continue;
            }
            let mut all = Seen::default();
            for message in e.prepared.iter().flatten().flatten() {
                all.add(message.numbers);
            }
            finished += 1;
            losing += usize::from(all.texts_losing_dot > 0);
            seen.add(all);
        }
        assert!(finished > 1_200 && losing > 1_000, "{finished} {losing}");
        assert!(
            rows > 10_000 && seen.texts_losing_dot > 5_000,
            "{rows} {seen:?}"
        );
    });
}

/// The same seed gives the same, another one something else.
#[test]
fn by_their_seeds() {
    let shown = |seed| format!("{:?} {:?}", fractions(seed), fractions_sheet(seed));
    for seed in 0..50 {
        assert_eq!(shown(seed), shown(seed));
        assert_ne!(shown(seed), shown(seed + 1));
    }
}

/// What the model counts of numbers, on some messages.
#[test]
fn numbers_that_are_seen() {
    let seen = |of: [usize; 4]| Seen {
        texts: of[0],
        texts_losing_dot: of[1],
        selectors: of[2],
        selectors_losing_dot: of[3],
        ..Seen::default()
    };
    for (source, wanted) in [
        ("a = x", [0, 0, 0, 0]),
        ("a = { 5 }{ 5.0 }{ NUMBER(5) }", [3, 0, 0, 0]),
        ("a = { NUMBER(5, minimumFractionDigits: 0) }", [1, 1, 0, 0]),
        (
            "a = { NUMBER(5.5, minimumFractionDigits: 0) }",
            [1, 0, 0, 0],
        ),
        ("a = { NUMBER(5, minimumFractionDigits: 1) }", [1, 0, 0, 0]),
        // chosen by 5, and 6 is written; chosen by the text 5, which is written first
        (
            "a = { NUMBER(5, minimumFractionDigits: 0) -> *[o] { 6 } }",
            [1, 0, 1, 1],
        ),
        (
            "a = { { NUMBER(5, minimumFractionDigits: 0) } -> *[o] { 6 } }",
            [2, 1, 0, 0],
        ),
        ("a = { 5 -> *[o] { 6 } }", [1, 0, 1, 0]),
    ] {
        let store = encode::store(&Bundle {
            locale: 0,
            isolating: true,
            items: vec![
                Item::Function("NUMBER".into()),
                Item::Plain(ftl::resource(source)),
            ],
        });
        let none = encode::arguments(&[]);
        let prepared = operations::prepare(&store, b"a", None, &none);
        let numbers = prepared.map(|resolution| Seen {
            choices: Default::default(),
            ..resolution.numbers
        });
        assert_eq!(numbers.ok(), Some(seen(wanted)), "{source}");
    }
}

/// Making the file compares the model with the Rust, and holds what is by hand to both.
#[test]
fn other_seeds() {
    large_stack(|| {
        for seed in 100..102 {
            let file = vectors::fractions::make(seed, 2400);
            assert!(file.count() > 350, "{}", file.count());
        }
    });
}
