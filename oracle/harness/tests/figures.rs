//! The figures that were worked out by hand: both models give them, and the
//! least workspace that is enough is as long.
#![forbid(unsafe_code)]

use harness::figures::{formattings, sheets};
use harness::model::effects::Lengths;
use harness::model::sheet::Refused;
use harness::model::workspace::{self, enough, enough_for_sheet};
use harness::{expected, expected_sheet};

/// Exactly as long a text and a list as are needed, and this workspace.
fn lent(text: &[u8], list: &[u8], workspace: usize) -> Lengths {
    Lengths {
        text: text.len(),
        list: list.len(),
        workspace,
    }
}

#[test]
fn formattings_by_hand() {
    let all = formattings();
    for point in &all {
        let source = &point.case.bundle.items[1];
        let e = expected(&point.case).unwrap_or_else(|d| panic!("{source:?}: {d}"));
        let done = e.answer.as_ref().expect("it finishes");
        assert_eq!(done.highest, point.figure, "{source:?}");
        let resolution = e.prepared.as_ref().expect("it has effects");
        let places = workspace::formatting(resolution, enough(&resolution.effects));
        assert_eq!(places, Ok(point.figure), "{source:?}");
        for workspace in 0..point.figure + 3 {
            let lengths = lent(&done.text, &done.list, workspace);
            let answer = e.with(lengths);
            match workspace < point.figure {
                true => assert_eq!(answer, Err(16), "{workspace}: {source:?}"),
                false => assert_eq!(answer.as_ref(), Ok(done), "{workspace}: {source:?}"),
            }
        }
    }
    assert!(all.len() >= 120, "{}", all.len());
}

#[test]
fn sheets_by_hand() {
    let all = sheets();
    for point in &all {
        let rows = &point.sheet.rows;
        let e = expected_sheet(&point.sheet).unwrap_or_else(|d| panic!("{rows:?}: {d}"));
        let done = e.answer.as_ref().expect("it finishes");
        assert_eq!(done.figures.highest, point.figure, "{rows:?}");
        let places = workspace::sheet(&e.prepared, enough_for_sheet(&e.prepared));
        assert_eq!(places, Some(Ok(point.figure)), "{rows:?}");
        for workspace in 0..point.figure + 3 {
            let answer = e.with(lent(&done.text, &done.list, workspace));
            match workspace < point.figure {
                true => assert_eq!(answer, Err(Refused::Cleared(16)), "{workspace}: {rows:?}"),
                false => assert_eq!(answer.as_ref(), Ok(done), "{workspace}: {rows:?}"),
            }
        }
    }
    assert!(all.len() >= 20, "{}", all.len());
}
