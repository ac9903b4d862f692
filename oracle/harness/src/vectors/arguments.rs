//! arguments.vec: formattings and sheets by the order of their arguments. The
//! hand-made ones come first, then generated ones as they are listed, the same in
//! their accepted form, and some with damaged arguments.

use super::formats::{format_of, hurt, Format, LENT};
use super::sheets::{self, LONGEST};
use super::{File, Seeded, CASES, FIELDS};
use crate::encode;
use crate::model::effects::Lengths;
use crate::model::sheet::{join, prepare};
use crate::order;
use crate::random::Random;
use crate::{expected, expected_sheet, listed, listed_sheet, Expected, Listed};

/// What a generated case has of store and images at most; seldom it is longer.
const SHORT: usize = 220;

struct Writer {
    file: File,
    r: Random,
}

pub fn make(seed: u64, cases: usize) -> File {
    let mut w = Writer {
        file: File::default(),
        r: Random::new(seed ^ 19),
    };
    w.by_hand();
    let mut at = seed.wrapping_mul(19_000_013);
    at = w.until(110 * cases / CASES, at, Writer::formatting);
    w.until(45 * cases / CASES, at, Writer::sheet);
    let longest = w.file.longest();
    assert!(longest <= LONGEST, "a case of {longest} bytes");
    w.file
}

/// Of the five answers of a call, the places of those that tell something: the first,
/// one with all that is needed, and each that differs from the one before.
fn telling(answers: [u8; 5]) -> impl Iterator<Item = usize> {
    (0..5).filter(move |at| [0, 3].contains(at) || answers[*at] != answers[at - 1])
}

impl Seeded for Writer {
    fn file(&self) -> &File {
        &self.file
    }
}

impl Writer {
    fn by_hand(&mut self) {
        for calls in order::formattings().chunks(5) {
            let answers = [0, 1, 2, 3, 4].map(|at| calls[at].answer);
            for call in telling(answers).map(|at| &calls[at]) {
                let format = Format {
                    store: call.store.clone(),
                    message: call.id.clone(),
                    attribute: call.attribute.clone(),
                    arguments: call.arguments.clone(),
                };
                let answer = format.judged(&mut self.file, call.lengths);
                let number = answer.err().unwrap_or(0);
                assert_eq!(number, call.answer, "{}", call.words);
            }
        }
        for calls in order::sheets().chunks(5) {
            let answers = [0, 1, 2, 3, 4].map(|at| calls[at].answer);
            for call in telling(answers).map(|at| &calls[at]) {
                let prepared = prepare(&call.store, &call.sheet);
                let refused = join(&prepared, call.lengths).err();
                let answer = refused.map_or(0, |refused| refused.number());
                assert_eq!(answer, call.answer, "{}", call.words);
                let bytes = (&call.store[..], &call.sheet[..]);
                sheets::write(&mut self.file, bytes, call.lengths, &prepared, false);
            }
        }
    }

    /// A formatting as it is listed, and in its accepted form; or damaged.
    fn formatting(&mut self, seed: u64) {
        let listed = listed(seed);
        let e = expected(&listed.case).unwrap_or_else(|d| panic!("case {seed}: {d}"));
        let arguments = encode::listed(&listed.listed);
        let Some(lengths) = self.need(&e, arguments.len()) else {
            return;
        };
        let mut format = format_of(&listed.case, &e);
        match self.r.below(4) {
            0 => self.damaged(&format, &listed, lengths),
            1 => {
                format.write(&mut self.file, Some(lengths), e.with(lengths), e.from_rust);
            }
            _ => {
                format.arguments = arguments;
                let _ = format.judged(&mut self.file, lengths);
            }
        }
    }

    /// The arguments with some bytes changed.
    fn damaged(&mut self, format: &Format, listed: &Listed, lengths: Lengths) {
        let mut format = format.clone();
        format.arguments = encode::listed(&listed.listed);
        hurt(&mut self.r, &mut format.arguments);
        let _ = format.judged(&mut self.file, lengths);
    }

    /// Lengths for a short case, or seldom a longer one: those that just fit, longer
    /// ones, or a list under 5 bytes.
    fn need(&mut self, e: &Expected, arguments: usize) -> Option<Lengths> {
        let done = e.answer.as_ref().ok()?;
        let input = e.store.len() + arguments;
        let length = input + done.text.len() + done.list.len() + FIELDS;
        let longest = done.text.len().max(done.list.len()).max(done.highest);
        let short = input < SHORT || self.r.one_in(30);
        if !short || length > LONGEST || longest + 40 > LENT {
            return None;
        }
        let mut lengths = e.need()?;
        match self.r.below(6) {
            0 => lengths.list = self.r.below(5),
            1 => lengths.text += self.r.below(40),
            2 => lengths.list += self.r.below(40),
            _ => {}
        }
        Some(lengths)
    }

    /// A sheet as it is listed, or one time in four in its accepted form.
    fn sheet(&mut self, seed: u64) {
        let listed = listed_sheet(seed);
        let sheet = match self.r.one_in(4) {
            true => &listed.accepted,
            false => &listed.sheet,
        };
        let e = expected_sheet(sheet).unwrap_or_else(|d| panic!("sheet {seed}: {d}"));
        let short = e.store.len() + e.sheet.len() < 2 * SHORT || self.r.one_in(30);
        if !short || sheet.rows.len() < 2 {
            return;
        }
        let mut lengths = *sheets::needs(&e.prepared).last().expect("one at least");
        match self.r.below(8) {
            0 => lengths.list = self.r.below(5),
            1 => lengths.text = self.r.below(lengths.text + 1),
            _ => {}
        }
        let bytes = (&e.store[..], &e.sheet[..]);
        sheets::write(&mut self.file, bytes, lengths, &e.prepared, e.from_rust);
    }
}
