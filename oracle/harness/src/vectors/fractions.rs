//! fractions.vec: formattings and sheets by their fraction digits. The hand-made ones
//! come first, then generated ones, most with a number that the original Rust ends
//! with a dot, then some with damaged bytes.

use super::formats::{format_of, hurt, Format, LENT};
use super::sheets::{self, LONGEST};
use super::{File, Seeded, CASES, FIELDS};
use crate::case::Case;
use crate::fractions::{changed, formattings, lent, lent_sheets, sheets as printed, LONE};
use crate::model::effects::Lengths;
use crate::model::sheet::{join, prepare};
use crate::random::Random;
use crate::{expected, expected_sheet, fractions, fractions_sheet, Expected};

/// What a generated case has of store and images at most; seldom it is longer.
const SHORT: usize = 700;

struct Writer {
    file: File,
    r: Random,
    turn: usize,
}

pub fn make(seed: u64, cases: usize) -> File {
    let mut w = Writer {
        file: File::default(),
        r: Random::new(seed ^ 3),
        turn: 0,
    };
    w.by_hand();
    let mut at = seed.wrapping_mul(23_000_009);
    at = w.until(60 * cases / CASES, at, Writer::formatting);
    at = w.until(25 * cases / CASES, at, Writer::sheet);
    at = w.until(16 * cases / CASES, at, Writer::damaged);
    w.until(8 * cases / CASES, at, Writer::damaged_sheet);
    let longest = w.file.longest();
    assert!(longest <= LONGEST, "a case of {longest} bytes");
    w.file
}

impl Seeded for Writer {
    fn file(&self) -> &File {
        &self.file
    }
}

impl Writer {
    /// Those worked out by hand; of the lone numbers every other one, as numbers.vec
    /// has such texts and categories, too.
    fn by_hand(&mut self) {
        for (at, point) in formattings().into_iter().enumerate() {
            let e = expected(&point.case).expect("they agree");
            let done = e.answer.as_ref().expect("it finishes");
            assert_eq!(done.text, point.text.as_bytes(), "{:?}", point.case);
            assert_eq!(done.highest, point.figure, "{:?}", point.case);
            if at < LONE && at % 2 == 1 {
                continue;
            }
            self.turn += 1;
            for lengths in self.near(e.need().expect("it finishes")) {
                self.format(&point.case, &e, lengths);
            }
        }
        for call in lent() {
            let e = expected(&call.case).expect("they agree");
            let answer = e.with(call.lengths).err().unwrap_or(0);
            assert_eq!(answer, call.answer, "{:?}", call.case);
            self.format(&call.case, &e, Some(call.lengths));
        }
        for point in printed() {
            let e = expected_sheet(&point.sheet).expect("they agree");
            let said = e.answer.as_ref().map_err(|refused| refused.number());
            let said = said.map(|done| (done.text.clone(), done.figures.highest));
            let wanted = point.said.map(|(text, figure)| (text.into_bytes(), figure));
            assert_eq!(said, wanted, "{:?}", point.sheet.rows);
            let whole = *sheets::needs(&e.prepared).last().expect("one at least");
            let bytes = (&e.store[..], &e.sheet[..]);
            sheets::write(&mut self.file, bytes, whole, &e.prepared, e.from_rust);
        }
        for call in lent_sheets() {
            let e = expected_sheet(&call.sheet).expect("they agree");
            let refused = e.with(call.lengths).err();
            let answer = refused.map_or(0, |refused| refused.number());
            assert_eq!(answer, call.answer, "{:?}", call.sheet.rows);
            let bytes = (&e.store[..], &e.sheet[..]);
            sheets::write(
                &mut self.file,
                bytes,
                call.lengths,
                &e.prepared,
                e.from_rust,
            );
        }
        for call in changed() {
            let format = Format {
                store: call.store,
                message: b"a".to_vec(),
                attribute: None,
                arguments: call.arguments,
            };
            let lengths = Lengths {
                text: 40,
                list: 40,
                workspace: 0,
            };
            let answer = format.judged(&mut self.file, lengths);
            let text = answer.map(|done| done.text);
            assert_eq!(text, call.said.map(|text| text.as_bytes().to_vec()));
        }
    }

    /// Ample buffers, or ones that just fit, or one byte less of text; and where there
    /// is a workspace, one that just fits and one byte less of it.
    fn near(&self, need: Lengths) -> Vec<Option<Lengths>> {
        if need.workspace > 0 {
            let workspace = need.workspace - 1;
            return vec![Some(need), Some(Lengths { workspace, ..need })];
        }
        let text = need.text.saturating_sub(1);
        match self.turn % 4 {
            0 => vec![None],
            1 => vec![Some(Lengths { text, ..need })],
            _ => vec![Some(need)],
        }
    }

    /// A formatting, with ample buffers, ones that just fit, or one byte less of one
    /// of them.
    fn formatting(&mut self, seed: u64) {
        let case = fractions(seed);
        let e = expected(&case).unwrap_or_else(|d| panic!("case {seed}: {d}"));
        if !self.worth(&e) {
            return;
        }
        let Some(mut lengths) = e.need() else {
            self.format(&case, &e, None);
            return;
        };
        match self.r.below(8) {
            0 | 1 => lengths.text = lengths.text.saturating_sub(1),
            2 | 3 => lengths.workspace = lengths.workspace.saturating_sub(1),
            4 => lengths.list -= 1,
            5 => {
                self.format(&case, &e, None);
                return;
            }
            _ => {}
        }
        self.format(&case, &e, Some(lengths));
    }

    /// Keeps the file small and its cases telling: most have a number that the
    /// original ends with a dot.
    fn worth(&mut self, e: &Expected) -> bool {
        let short = e.store.len() < SHORT || self.r.one_in(30);
        let losing = match &e.prepared {
            Ok(resolution) => resolution.numbers.texts_losing_dot > 0,
            Err(_) => false,
        };
        short && (losing || self.r.one_in(8))
    }

    /// A sheet of two messages or more, likewise.
    fn sheet(&mut self, seed: u64) {
        let sheet = fractions_sheet(seed);
        let e = expected_sheet(&sheet).unwrap_or_else(|d| panic!("sheet {seed}: {d}"));
        let short = e.store.len() + e.sheet.len() < 2 * SHORT || self.r.one_in(30);
        if !short || sheet.rows.len() < 2 {
            return;
        }
        let needs = sheets::needs(&e.prepared);
        let some = *self.r.pick(&needs);
        let mut lengths = *needs.last().expect("one at least");
        match self.r.below(6) {
            0 | 1 => lengths.text = some.text.saturating_sub(1),
            2 => lengths.workspace = lengths.workspace.saturating_sub(1),
            _ => {}
        }
        let bytes = (&e.store[..], &e.sheet[..]);
        sheets::write(&mut self.file, bytes, lengths, &e.prepared, e.from_rust);
    }

    /// A formatting with changed bytes of the store or of the arguments, or of both.
    fn damaged(&mut self, seed: u64) {
        let case = fractions(seed);
        let e = expected(&case).unwrap_or_else(|d| panic!("case {seed}: {d}"));
        if e.store.len() >= SHORT {
            return;
        }
        let mut format = format_of(&case, &e);
        let which = self.r.below(5);
        if which < 3 {
            hurt(&mut self.r, &mut format.store);
        }
        if which > 1 {
            hurt(&mut self.r, &mut format.arguments);
        }
        let lengths = Lengths {
            text: 60 + self.r.below(100),
            list: 60 + self.r.below(100),
            workspace: self.r.below(40),
        };
        let _ = format.judged(&mut self.file, lengths);
    }

    /// A sheet with changed bytes of the store or of the image.
    fn damaged_sheet(&mut self, seed: u64) {
        let sheet = fractions_sheet(seed);
        let e = expected_sheet(&sheet).unwrap_or_else(|d| panic!("sheet {seed}: {d}"));
        if e.store.len() + e.sheet.len() >= 2 * SHORT {
            return;
        }
        let (mut store, mut image) = (e.store, e.sheet);
        match self.r.one_in(3) {
            true => hurt(&mut self.r, &mut store),
            false => hurt(&mut self.r, &mut image),
        }
        let prepared = prepare(&store, &image);
        let mut lengths = *sheets::needs(&prepared).last().expect("one at least");
        if join(&prepared, lengths).is_ok() && self.r.one_in(2) {
            lengths.text = lengths.text.saturating_sub(1);
        }
        sheets::write(&mut self.file, (&store, &image), lengths, &prepared, false);
    }

    /// Writes a formatting, unless it is too long.
    fn format(&mut self, case: &Case, e: &Expected, lengths: Option<Lengths>) {
        let answer = lengths.map_or_else(|| e.answer.clone(), |lengths| e.with(lengths));
        let longest = lengths.map_or(0, |l| l.text.max(l.list).max(l.workspace));
        let out = match &answer {
            Ok(done) => done.text.len() + done.list.len(),
            Err(_) => 0,
        };
        let length = e.store.len() + e.arguments.len() + out + FIELDS;
        if longest <= LENT && length <= LONGEST {
            format_of(case, e).write(&mut self.file, lengths, answer, e.from_rust);
        }
    }
}
