//! nesting.vec: formattings and sheets by their isolation marks. The hand-made
//! ones come first, then generated ones without a mark in the input, whose texts
//! are paired, then some with marks in it.

use super::formats::{format_of, LENT};
use super::sheets::{self, LONGEST};
use super::{File, Seeded, CASES, FIELDS};
use crate::case::Case;
use crate::model::effects::Lengths;
use crate::model::marks::{marks, open_at_the_limit, paired, Marks};
use crate::model::premises::{Kind, KINDS};
use crate::nesting;
use crate::random::Random;
use crate::{
    expected, expected_sheet, marked, marked_sheet, unmarked, unmarked_sheet, Expected,
    ExpectedSheet,
};

struct Writer {
    file: File,
    r: Random,
}

pub fn make(seed: u64, cases: usize) -> File {
    let mut w = Writer {
        file: File::default(),
        r: Random::new(seed ^ 12),
    };
    w.by_hand();
    let mut at = seed.wrapping_mul(17_000_023);
    at = w.until(240 * cases / CASES, at, Writer::unmarked);
    at = w.until(80 * cases / CASES, at, Writer::unmarked_sheet);
    w.until(40 * cases / CASES, at, Writer::marked);
    let longest = w.file.longest();
    assert!(longest <= LONGEST, "a case of {longest} bytes");
    w.file
}

/// What a call needs, whose text is cut short or not.
struct Need {
    lengths: Lengths,
    /// Of store, images, text and list.
    bytes: usize,
    cut: bool,
    marks: Marks,
}

impl Seeded for Writer {
    fn file(&self) -> &File {
        &self.file
    }
}

impl Writer {
    fn by_hand(&mut self) {
        for point in nesting::formattings() {
            let e = expected(&point.case).expect("they agree");
            let text = &e.answer.as_ref().expect("it finishes").text;
            assert_eq!(text, point.said.text.as_bytes());
            let lengths = self.lent(need(&e).expect("it finishes").lengths);
            assert!(self.format(&point.case, &e, lengths), "{:?}", point.case);
        }
        for point in nesting::sheets() {
            let e = expected_sheet(&point.sheet).expect("they agree");
            let done = e.answer.as_ref().expect("it finishes");
            assert_eq!(done.text, point.said.text.as_bytes());
            let lengths = Lengths {
                text: done.text.len(),
                list: done.list.len(),
                workspace: done.figures.highest,
            };
            assert!(self.sheet(&e, lengths), "{:?}", point.sheet);
        }
    }

    fn unmarked(&mut self, seed: u64) {
        let case = unmarked(seed);
        let e = expected(&case).unwrap_or_else(|d| panic!("case {seed}: {d}"));
        let Some(need) = need(&e) else { return };
        let text = &e.answer.as_ref().expect("it finishes").text;
        paired(text).unwrap_or_else(|d| panic!("case {seed}: {d}"));
        if self.worth(&need) {
            let lengths = self.lent(need.lengths);
            self.format(&case, &e, lengths);
        }
    }

    fn unmarked_sheet(&mut self, seed: u64) {
        let sheet = unmarked_sheet(seed);
        let e = expected_sheet(&sheet).unwrap_or_else(|d| panic!("sheet {seed}: {d}"));
        let Some(need) = need_of_sheet(&e) else {
            return;
        };
        let text = &e.answer.as_ref().expect("it finishes").text;
        paired(text).unwrap_or_else(|d| panic!("sheet {seed}: {d}"));
        if sheet.rows.len() > 1 && self.worth(&need) {
            let lengths = self.lent(need.lengths).unwrap_or(need.lengths);
            self.sheet(&e, lengths);
        }
    }

    /// A formatting, or one time in four a sheet, with marks in the input; most
    /// are unpaired.
    fn marked(&mut self, seed: u64) {
        let kind: Kind = *self.r.pick(&KINDS);
        if self.r.one_in(4) {
            let sheet = marked_sheet(seed, kind);
            let e = expected_sheet(&sheet).unwrap_or_else(|d| panic!("sheet {seed}: {d}"));
            if let Some(need) = need_of_sheet(&e) {
                if self.tells(&need) {
                    self.sheet(&e, need.lengths);
                }
            }
            return;
        }
        let case = marked(seed, kind);
        let e = expected(&case).unwrap_or_else(|d| panic!("case {seed}: {d}"));
        if let Some(need) = need(&e) {
            if self.tells(&need) {
                let lengths = self.lent(need.lengths);
                self.format(&case, &e, lengths);
            }
        }
    }

    /// Keeps the file small and its cases telling: with marks, most with nested
    /// ones or cut short.
    fn worth(&mut self, need: &Need) -> bool {
        let small = match need.cut {
            true => need.bytes < 900 && self.r.one_in(4) || self.r.one_in(200),
            false => need.bytes < 300 || need.bytes < 1000 && self.r.one_in(25),
        };
        let dull = need.marks.deepest == 0 && !self.r.one_in(30)
            || need.marks.deepest == 1 && !need.cut && !self.r.one_in(3);
        small && !dull
    }

    fn tells(&mut self, need: &Need) -> bool {
        need.bytes < 600 && (!need.marks.paired() || self.r.one_in(8))
    }

    /// Lengths that just fit or are longer, or one time in eight none.
    fn lent(&mut self, need: Lengths) -> Option<Lengths> {
        if self.r.one_in(8) {
            return None;
        }
        let mut longer = |length: usize| match self.r.one_in(2) {
            true => length,
            false => length + self.r.below(40),
        };
        Some(Lengths {
            text: longer(need.text),
            list: longer(need.list),
            workspace: longer(need.workspace),
        })
    }

    fn format(&mut self, case: &Case, e: &Expected, lengths: Option<Lengths>) -> bool {
        let done = e.answer.as_ref().expect("it finishes");
        let length = e.store.len() + e.arguments.len() + done.text.len() + done.list.len();
        if length + FIELDS > LONGEST {
            return false;
        }
        if let Some(lengths) = lengths {
            if lengths.text.max(lengths.list).max(lengths.workspace) > LENT {
                return false;
            }
            assert_eq!(e.with(lengths), e.answer, "{case:?}");
        }
        format_of(case, e).write(&mut self.file, lengths, e.answer.clone(), e.from_rust)
    }

    fn sheet(&mut self, e: &ExpectedSheet, lengths: Lengths) -> bool {
        let bytes = (&e.store[..], &e.sheet[..]);
        sheets::write(&mut self.file, bytes, lengths, &e.prepared, e.from_rust)
    }
}

/// Of a formatting that finishes.
fn need(e: &Expected) -> Option<Need> {
    let done = e.answer.as_ref().ok()?;
    Some(Need {
        lengths: e.need()?,
        bytes: e.store.len() + e.arguments.len() + done.text.len() + done.list.len(),
        cut: done.begun == 101,
        marks: marks(&done.text).expect("it is text"),
    })
}

/// Of a sheet that finishes.
fn need_of_sheet(e: &ExpectedSheet) -> Option<Need> {
    let done = e.answer.as_ref().ok()?;
    let messages = e.prepared.as_ref().ok()?.iter().flatten();
    let mut limits = messages.map(|message| open_at_the_limit(&message.effects));
    Some(Need {
        lengths: Lengths {
            text: done.text.len(),
            list: done.list.len(),
            workspace: done.figures.highest,
        },
        bytes: e.store.len() + e.sheet.len() + done.text.len() + done.list.len(),
        cut: limits.any(|open| open.is_some()),
        marks: marks(&done.text).expect("it is text"),
    })
}
