//! formats.vec and sentences.vec: formatting, with and without lent lengths.

use super::File;
use crate::bytes::Write;
use crate::case::Case;
use crate::model::effects::{Finished, Lengths};
use crate::model::operations;
use crate::points::points;
use crate::random::Random;
use crate::sentences::sentences;
use crate::{expected, generator, Expected};

/// What a replaying program may lend for operation 40.
pub(super) const LENT: usize = 4096;

/// One formatting over bytes.
#[derive(Clone)]
pub(super) struct Format {
    pub(super) store: Vec<u8>,
    pub(super) message: Vec<u8>,
    pub(super) attribute: Option<Vec<u8>>,
    pub(super) arguments: Vec<u8>,
}

impl Format {
    pub(super) fn write(
        &self,
        file: &mut File,
        lengths: Option<Lengths>,
        answer: Result<Finished, u8>,
        from_rust: bool,
    ) -> bool {
        let mut case = Vec::new();
        case.blob(&self.store);
        case.str(&self.message);
        case.flag(self.attribute.is_some());
        case.str(self.attribute.as_deref().unwrap_or_default());
        case.blob(&self.arguments);
        if let Some(lengths) = lengths {
            case.u32(lengths.text);
            case.u32(lengths.list);
            case.u32(lengths.workspace);
        }
        match answer {
            Err(refusal) => case.u8(refusal),
            Ok(done) => {
                if [done.text.len(), done.list.len(), done.highest]
                    .iter()
                    .any(|used| *used > LENT)
                {
                    return false;
                }
                case.u8(0);
                case.blob(&done.text);
                case.blob(&done.list);
                case.u16(done.errors);
                case.u8(done.begun);
                case.u32(done.unfound as usize);
                case.u32(done.highest);
                case.u8(u8::from(!from_rust));
            }
        }
        file.case(if lengths.is_some() { 41 } else { 40 }, case)
    }

    /// The answer of the model alone, for inputs that the Rust can't get.
    fn answer(&self, lengths: Lengths) -> Result<Finished, u8> {
        let attribute = self.attribute.as_deref();
        let prepared = operations::prepare(&self.store, &self.message, attribute, &self.arguments);
        operations::format(&prepared, lengths)
    }

    /// Writes it with that answer, and gives it.
    pub(super) fn judged(&self, file: &mut File, lengths: Lengths) -> Result<Finished, u8> {
        let answer = self.answer(lengths);
        self.write(file, Some(lengths), answer.clone(), false);
        answer
    }

    /// Writes it without lengths, if it is refused.
    fn write_judged(&self, file: &mut File) -> bool {
        let answer = self.answer(Lengths::AMPLE);
        match answer {
            Err(_) => self.write(file, None, answer, false),
            // Accepted all the same: not what this is for.
            Ok(_) => false,
        }
    }
}

pub fn sentences_file() -> File {
    let mut file = File::default();
    for sentence in sentences() {
        let e = expected(&sentence.case).expect("model and Rust agree");
        let format = Format {
            store: e.store,
            message: sentence.case.message.into_bytes(),
            attribute: None,
            arguments: e.arguments,
        };
        assert!(format.write(&mut file, None, e.answer, e.from_rust));
    }
    file
}

pub fn make(seed: u64, cases: usize) -> File {
    let mut r = Random::new(seed ^ 2);
    let mut file = File::default();
    for case in points() {
        point(&mut file, &case);
    }
    let mut at = seed.wrapping_mul(1_000_003);
    while file.count() < cases {
        at += 1;
        let case = generator(at);
        let e = expected(&case).unwrap_or_else(|d| panic!("case {at}: {d}"));
        let mut format = format_of(&case, &e);
        if r.one_in(12) {
            // The slice may be longer than what is used.
            format.store.resize(e.store.len() + 1 + r.below(9), 0xAA);
        }
        if !worth(&mut r, &e) {
            continue;
        }
        match r.below(20) {
            0 => damaged(&mut file, &mut r, &format),
            _ if e.answer == Err(17) => lent(&mut file, &mut r, &format, &e),
            1..=7 => lent(&mut file, &mut r, &format, &e),
            _ => format.write(&mut file, None, e.answer, e.from_rust),
        };
    }
    file
}

pub(super) fn format_of(case: &Case, e: &Expected) -> Format {
    Format {
        store: e.store.clone(),
        message: case.message.clone().into_bytes(),
        attribute: case.attribute.clone().map(String::into_bytes),
        arguments: e.arguments.clone(),
    }
}

/// A hand-made point with ample, exact and short buffers.
fn point(file: &mut File, case: &Case) {
    let e = expected(case).unwrap_or_else(|d| panic!("{case:?}: {d}"));
    let format = format_of(case, &e);
    let Ok(done) = &e.answer else {
        format.write(file, None, e.answer, e.from_rust);
        return;
    };
    let exact = Lengths {
        text: done.text.len(),
        list: done.list.len(),
        workspace: done.highest,
    };
    let mut all = vec![exact];
    if exact.text > 0 {
        let text = exact.text - 1;
        all.push(Lengths { text, ..exact });
    }
    if exact.workspace > 0 {
        let workspace = exact.workspace - 1;
        all.push(Lengths { workspace, ..exact });
    }
    if done.errors > 0 {
        let list = exact.list - 1;
        all.push(Lengths { list, ..exact });
    }
    for lengths in all {
        format.write(file, Some(lengths), e.with(lengths), e.from_rust);
    }
}

/// Keeps the file small and its cases telling.
fn worth(r: &mut Random, e: &Expected) -> bool {
    let length = e.store.len();
    let done = match &e.answer {
        Ok(done) => done,
        Err(17) => return length < 330,
        Err(refusal) => return length < 120 && (*refusal != 11 || r.one_in(4)),
    };
    let cut = done.begun == 101;
    let dull = done.begun < 2 && done.errors == 0 && done.highest == 0;
    match length {
        _ if !e.from_rust => length < 500,
        _ if cut => length < 360 || r.one_in(25),
        0..=140 => !dull || r.one_in(4),
        141..=240 => !dull && r.one_in(3),
        _ => r.one_in(80),
    }
}

/// A formatting with lent lengths, near what it needs.
fn lent(file: &mut File, r: &mut Random, format: &Format, e: &Expected) -> bool {
    let mut lengths = Lengths {
        text: LENT,
        list: LENT,
        workspace: LENT,
    };
    if let Ok(done) = &e.answer {
        lengths = Lengths {
            text: done.text.len(),
            list: done.list.len(),
            workspace: done.highest,
        };
        match r.below(8) {
            0 => {}
            3 if done.errors > 0 => lengths.list -= 1,
            1..=4 if done.highest > 0 => lengths.workspace = done.highest - 1,
            3 | 4 => lengths.list = 5,
            1 | 2 => lengths.text = lengths.text.saturating_sub(1),
            5 => lengths.text = r.below(lengths.text + 1),
            6 => {
                lengths.list = r.below(lengths.list + 1);
                lengths.workspace = r.below(lengths.workspace + 1);
            }
            _ => lengths.list += 3,
        }
        if r.one_in(3) {
            // Several short at once: the first one met decides.
            lengths.text = r.below(lengths.text + 1);
            lengths.workspace = r.below(lengths.workspace + 1);
            lengths.list = 5 + r.below(lengths.list + 1);
        }
    } else if r.one_in(3) {
        lengths.list = r.below(7);
    } else if r.one_in(2) {
        // Something else may be met before 17.
        lengths.text = r.below(12);
        lengths.list = 5 + r.below(12);
        lengths.workspace = r.below(12);
    }
    format.write(file, Some(lengths), e.with(lengths), e.from_rust)
}

/// A formatting with something wrong in what it gets.
fn damaged(file: &mut File, r: &mut Random, format: &Format) -> bool {
    let mut f = format.clone();
    for _ in 0..1 + r.below(2) {
        match r.below(6) {
            0 => hurt(r, &mut f.store),
            1 | 2 => hurt(r, &mut f.arguments),
            3 => f.message = bad_id(r),
            4 => f.attribute = Some(bad_id(r)),
            _ => f.message = r.pick(&[&b"zz"[..], b"t", b"NUMBER", b"A"]).to_vec(),
        }
    }
    f.write_judged(file)
}

fn bad_id(r: &mut Random) -> Vec<u8> {
    let long = "a".repeat(256);
    r.pick(&[
        "", "1a", "-t", "a b", "é", "a.x", "a\0", "$n", "_a", "a{", &long,
    ])
    .as_bytes()
    .to_vec()
}

/// Cuts, lengthens or changes some bytes.
pub fn hurt(r: &mut Random, bytes: &mut Vec<u8>) {
    match r.below(4) {
        _ if bytes.is_empty() => {}
        0 => bytes.truncate(r.below(bytes.len())),
        1 => bytes.push(r.below(4) as u8),
        2 => {
            let at = r.below(bytes.len());
            bytes[at] = r.draw() as u8;
        }
        _ => {
            let at = r.below(bytes.len());
            bytes[at] = bytes[at].wrapping_add(1);
        }
    }
}
