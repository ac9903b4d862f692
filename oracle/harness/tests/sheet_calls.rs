//! Sheets in one call: the joining, the refusals in each place and the buffers, by
//! document 02's Card 1. Expected answers are written by hand, or follow from
//! those of single formattings.
#![forbid(unsafe_code)]

use harness::encode;
use harness::large_stack;
use harness::model::effects::{run, Lengths};
use harness::model::operations;
use harness::model::reader::{self, Row};
use harness::model::sheet::{
    format_sheet, join, left, prepare, Figures, Joined, Prepared, Refused,
};
use harness::sheet_points::{sheet, sheet_points};
use harness::vectors::sheets::needs;
use harness::{expected_sheet, sheet_generator, ExpectedSheet};

fn expected(source: &str, rows: &str) -> ExpectedSheet {
    expected_sheet(&sheet(source, rows)).unwrap_or_else(|d| panic!("{rows}: {d}"))
}

fn done(source: &str, rows: &str) -> Joined {
    let e = expected(source, rows);
    e.answer.unwrap_or_else(|r| panic!("{rows}: {r:?}"))
}

fn text(joined: &Joined) -> &str {
    std::str::from_utf8(&joined.text).expect("it is text")
}

/// The answer with these lengths, and the buffers after, all AA before.
fn lent(prepared: &Prepared, l: Lengths) -> (Result<Figures, u8>, [Vec<u8>; 3]) {
    let [mut text, mut list, mut work] = [l.text, l.list, l.workspace].map(|n| vec![0xAA; n]);
    let answer = format_sheet(prepared, &mut text, &mut list, &mut work);
    (answer, [text, list, work])
}

/// Whether every byte of the three is this one.
fn all(buffers: &[Vec<u8>; 3], byte: u8) -> bool {
    buffers.iter().flatten().all(|b| *b == byte)
}

#[test]
fn no_message_one_and_two() {
    let none = done("a = A", "");
    assert_eq!(none.list, [0, 0, 0, 5, 1]);
    assert_eq!((text(&none), none.figures), ("", Figures::default()));
    let (answer, [text_, list, work]) = lent(
        &expected("a = A", "").prepared,
        Lengths {
            text: 2,
            list: 7,
            workspace: 2,
        },
    );
    assert_eq!(answer, Ok(Figures::default()));
    assert_eq!(text_, [0xAA; 2]);
    assert_eq!(list, [0, 0, 0, 5, 1, 0xAA, 0xAA]);
    assert_eq!(work, [0; 2]);
    assert_eq!(text(&done("a = A", "a")), "A");
    let two = done("a = A\n.x = { $n }", "a; a.x; a.x n=5");
    assert_eq!(text(&two), "A{$n}5");
    assert_eq!(two.list, [0, 0, 0, 13, 1, 0, 6, 2, 4, 0, 1, b'n', 0]);
    let figures = Figures {
        text: 6,
        errors: 1,
        begun: 2,
        unfound: 0,
        highest: 0,
    };
    assert_eq!(two.figures, figures);
}

/// Each message is as if it were alone.
#[test]
fn nothing_is_carried_over() {
    // 100 placeables each, and 101 in one of them
    let fan = "c = { h }{ h }{ h }{ h }{ h }{ h }{ h }{ h }{ h }{ h }\n\
               d = { c }\n\
               h = { 1 }{ 1 }{ 1 }{ 1 }{ 1 }{ 1 }{ 1 }{ 1 }{ 1 }";
    let joined = done(fan, "c; c; c");
    assert_eq!((joined.figures.begun, joined.figures.errors), (300, 0));
    let joined = done(fan, "d; h; d; h");
    assert_eq!((joined.figures.begun, joined.figures.errors), (220, 2));
    assert!(text(&joined).ends_with(text(&done(fan, "h"))));
    // the arguments of a term, and of a message
    let terms = "a = { -t(n: \"1\") }\n-t = { $n }\nb = { $n }";
    let joined = done(terms, "a; b; b n=2; b");
    assert_eq!(text(&joined), "1{$n}2{$n}");
    assert_eq!(joined.figures.errors, 2);
    // the patterns that are being resolved
    let joined = done("a = x{ b }\nb = x{ c }\nc = y", "a; b; a");
    assert_eq!((text(&joined), joined.figures.errors), ("xxyxyxxy", 0));
    // the workspace, whose figure is the largest and no sum
    let work = "a = { { \"www\" } -> *[o] x }\nb = { { \"w\" } -> *[o] y }";
    assert_eq!(done(work, "b; a; b; a; b").figures.highest, 3);
    assert_eq!(done(work, "b; b; b").figures.highest, 1);
    // lookups of an id that is not there
    assert_eq!(done("a = { zz }{ F() }", "a; a; a").figures.unfound, 6);
}

/// What a message gives alone, joined, is what the sheet gives.
#[test]
fn joined_as_alone() {
    let check = |e: &ExpectedSheet| {
        let store = reader::store(&e.store).expect("well-formed");
        let mut joined = Joined {
            text: vec![],
            list: vec![0, 0, 0, 5, 1],
            figures: Figures::default(),
        };
        for row in reader::sheet(&e.sheet).expect("well-formed") {
            let (id, attribute) = (&row.message, row.attribute.as_deref());
            let one = operations::message_of(&store, id, attribute, &row.arguments);
            match operations::format(&one, Lengths::AMPLE) {
                Err(number) => return assert_eq!(e.answer, Err(Refused::Cleared(number))),
                Ok(one) => {
                    joined.text.extend(one.text);
                    joined.list.extend(&one.list[5..]);
                    joined.figures.errors += one.errors;
                    joined.figures.begun += usize::from(one.begun);
                    joined.figures.unfound += u64::from(one.unfound);
                    joined.figures.highest = joined.figures.highest.max(one.highest);
                }
            }
        }
        joined.figures.text = joined.text.len();
        let length = joined.list.len() as u32;
        joined.list[..4].copy_from_slice(&length.to_be_bytes());
        assert_eq!(e.answer, Ok(joined));
    };
    large_stack(move || {
        for sheet in sheet_points() {
            check(&expected_sheet(&sheet).expect("they agree"));
        }
        let (mut finished, mut refused) = (0, 0);
        for seed in 0..3000 {
            let sheet = sheet_generator(seed);
            let e = expected_sheet(&sheet).unwrap_or_else(|d| panic!("seed {seed}: {d}"));
            if reader::sheet(&e.sheet).is_some() {
                check(&e);
                finished += usize::from(e.answer.is_ok());
                refused += usize::from(e.answer.is_err());
            }
        }
        assert!(finished > 1500 && refused > 300, "{finished} {refused}");
    });
}

/// 30 and some thousands of messages.
#[test]
fn many_messages() {
    let source = "a = A{ $n }\n.x = { zz }\nb = { { a } -> *[o] b }";
    for count in [30, 5000, 65_535] {
        let names = ["a", "a.x", "b"];
        let rows: Vec<Row> = (0..count)
            .map(|at| {
                let (id, attribute) = names[at % 3].split_once('.').unwrap_or((names[at % 3], ""));
                Row {
                    message: id.into(),
                    attribute: (!attribute.is_empty()).then(|| attribute.into()),
                    arguments: encode::arguments(&[]),
                }
            })
            .collect();
        let image = encode::sheet(&rows);
        let given = join(
            &prepare(&expected(source, "").store, &image),
            Lengths::AMPLE,
        );
        let one = done(source, "a; a.x; b");
        let part = |n: usize, rows: &str| {
            let part = done(source, rows);
            (
                part.figures.text * n,
                part.figures.errors * n,
                part.figures.begun * n,
            )
        };
        let rest = ["", "a", "a; a.x"][count % 3];
        let (all, left) = (part(count / 3, "a; a.x; b"), part(1, rest));
        let given = given.expect("it finishes");
        assert_eq!(given.figures.text, all.0 + left.0);
        assert_eq!(given.figures.errors, all.1 + left.1);
        assert_eq!(given.figures.begun, all.2 + left.2);
        assert_eq!(given.figures.unfound, ((count + 1) / 3) as u64);
        assert_eq!(given.figures.highest, one.figures.highest);
        assert!(given.text.starts_with(&one.text.repeat(count / 3)));
    }
}

/// Each refusal at each place of a sheet of four; with another one after it.
#[test]
fn each_refusal_in_each_place() {
    let source = "a = A\nb =\n.x = B\n-t = t\ns = { NUMBER(5, minimumFractionDigits: 20) }\n\
                  e = { $q }\nw = { { \"www\" } -> *[o] w }\nlong = 0123456789012345678901234567";
    // needs at most 9 of text, 13 + 5 of list and 2 of workspace otherwise
    let lengths = Lengths {
        text: 20,
        list: 16,
        workspace: 2,
    };
    let wrong = [
        ("zz", 11),
        ("t", 11),
        ("NUMBER", 11),
        ("b", 12),
        ("a.x", 12),
        ("b.y", 12),
        ("a !version", 13),
        ("a !left", 13),
        ("long", 15),
        ("e m=1; e m=1", 7),
        ("w", 16),
        ("s", 17),
    ];
    let mut tried = 0;
    for (first, number) in wrong {
        for place in 0..4 {
            let mut rows = ["a"; 4];
            rows[place] = first;
            let alone = rows.join("; ");
            let after = wrong.iter().map(|(second, _)| format!("{alone}; {second}"));
            for rows in after.chain([alone.clone()]) {
                let (answer, buffers) = lent(&expected(source, &rows).prepared, lengths);
                assert_eq!(answer, Err(number), "{rows}");
                assert!(all(&buffers, 0), "{rows}");
                tried += 1;
            }
        }
    }
    assert_eq!(tried, 12 * 4 * 13);
    // without any of them
    let (answer, _) = lent(&expected(source, "a; a; a; a").prepared, lengths);
    assert!(answer.is_ok());
}

/// 4, then 18, then 7 for a list under 5 bytes, before any message; nothing is
/// changed.
#[test]
fn before_any_message() {
    for rows in ["", "a", "zz", "a; zz", "a !version", "long"] {
        let e = expected("a = A\nlong = 0123456789", rows);
        let bad_store = &e.store[..e.store.len() - 1];
        let bad_sheet = &e.sheet[..e.sheet.len() - 1];
        for list in 0..5 {
            let lengths = Lengths {
                text: 3,
                list,
                workspace: 3,
            };
            for (store, image, number) in [
                (bad_store, bad_sheet, 4),
                (bad_store, &e.sheet[..], 4),
                (&e.store[..], bad_sheet, 18),
                (&e.store[..], &e.sheet[..], 7),
            ] {
                let (answer, buffers) = lent(&prepare(store, image), lengths);
                assert_eq!(answer, Err(number));
                assert!(all(&buffers, 0xAA));
            }
        }
        let lengths = Lengths {
            text: 3,
            list: 9,
            workspace: 3,
        };
        for (store, image, number) in [(bad_store, &e.sheet[..], 4), (&e.store, bad_sheet, 18)] {
            let (answer, buffers) = lent(&prepare(store, image), lengths);
            assert_eq!(answer, Err(number));
            assert!(all(&buffers, 0xAA));
        }
    }
}

/// The first write that passes decides, whatever a later message would meet.
#[test]
fn a_run_comes_before_the_next_message() {
    let source = "a = Hello\nv = { $n }\nw = { { \"www\" } -> *[o] { $n } }";
    let tight = |rows: &str, text, list, workspace| {
        let lengths = Lengths {
            text,
            list,
            workspace,
        };
        let (answer, buffers) = lent(&expected(source, rows).prepared, lengths);
        assert!(answer.is_ok() || all(&buffers, 0));
        answer.map(|figures| figures.text)
    };
    assert_eq!(tight("a; zz", 4, 5, 0), Err(15));
    assert_eq!(tight("a; zz", 5, 5, 0), Err(11));
    assert_eq!(tight("zz; a", 4, 5, 0), Err(11));
    assert_eq!(tight("v; zz", 4, 12, 0), Err(7));
    assert_eq!(tight("v; zz", 3, 13, 0), Err(15));
    assert_eq!(tight("v; zz", 4, 13, 0), Err(11));
    assert_eq!(tight("w; a !kind", 0, 5, 2), Err(16));
    assert_eq!(tight("w; a !kind", 0, 5, 3), Err(7));
    assert_eq!(tight("w; a !kind", 4, 13, 3), Err(13));
    // a list of 5 bytes has room for no record, and needs none
    assert_eq!(tight("a; a", 10, 5, 0), Ok(10));
    assert_eq!(tight("a; v", 14, 5, 0), Err(7));
    assert_eq!(tight("v; v", 8, 21, 0), Ok(8));
    assert_eq!(tight("v; v", 8, 20, 0), Err(7));
    // a message that writes nothing needs no room
    assert_eq!(tight("a; v n=none; a", 10, 5, 0), Ok(10));
    assert_eq!(tight("v n=none; v n=none", 0, 5, 0), Ok(0));
}

/// The list passes neither its buffer nor 4,294,967,295 bytes.
#[test]
fn the_longest_list() {
    const MOST: usize = 4_294_967_295;
    let record = expected("v = { $n }", "v").prepared.expect("a sheet");
    let record = record[0].as_ref().expect("a message");
    for (lent, listed, fits) in [
        (MOST, MOST - 8, true),
        (MOST, MOST - 7, false),
        (MOST + 1, MOST - 8, true),
        (MOST + 1, MOST - 7, false),
        (usize::MAX / 2, MOST, false),
        (MOST - 1, MOST - 9, true),
        (MOST - 1, MOST - 8, false),
    ] {
        let lengths = Lengths {
            list: lent,
            ..Lengths::AMPLE
        };
        let answer = run(&record.effects, left(lengths, 0, listed));
        assert_eq!(answer.err(), (!fits).then_some(7), "{lent} {listed}");
    }
}

/// Buffers that just fit, and one a byte short at each message.
#[test]
fn exact_and_one_short_at_every_message() {
    large_stack(|| {
        let mut sheets = sheet_points();
        sheets.extend((10_000..11_500).map(sheet_generator));
        let (mut texts, mut lists, mut works) = (0, 0, 0);
        for sheet in sheets {
            let e = expected_sheet(&sheet).expect("they agree");
            let Ok(done) = &e.answer else { continue };
            let needs = needs(&e.prepared);
            let whole = *needs.last().expect("one at least");
            assert_eq!(e.with(whole).as_ref(), Ok(done));
            assert_eq!(whole.text, done.figures.text);
            assert_eq!(whole.workspace, done.figures.highest);
            for pair in needs.windows(2) {
                if pair[1].text > pair[0].text {
                    let text = pair[1].text - 1;
                    let answer = e.with(Lengths { text, ..whole });
                    assert_eq!(answer, Err(Refused::Cleared(15)));
                    texts += 1;
                }
                if pair[1].list > pair[0].list {
                    let list = pair[1].list - 1;
                    let answer = e.with(Lengths { list, ..whole });
                    assert_eq!(answer, Err(Refused::Cleared(7)));
                    lists += 1;
                }
                if pair[1].workspace > pair[0].workspace {
                    let workspace = pair[1].workspace - 1;
                    let answer = e.with(Lengths { workspace, ..whole });
                    assert_eq!(answer, Err(Refused::Cleared(16)));
                    works += 1;
                }
            }
            let list = 4;
            let answer = e.with(Lengths { list, ..whole });
            assert_eq!(answer, Err(Refused::Unchanged(7)));
        }
        assert!(
            texts > 3000 && lists > 1000 && works > 100,
            "{texts} {lists} {works}"
        );
    });
}
