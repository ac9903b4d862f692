//! What was counted of isolation marks.

use harness::model::marks::{paired, Marks};
use std::fmt;

/// Texts by their marks.
#[derive(Clone, Copy, Debug, Default, PartialEq, Eq)]
pub struct Nesting {
    /// Finished texts of inputs in which nothing has a mark.
    pub texts: u64,
    /// Those of them whose input has damaged bytes.
    pub from_damaged: u64,
    /// Texts that are not counted, as the damage has put a mark into the input.
    pub left_out: u64,
    /// Texts that have marks, all marks in them, and the most that are open at
    /// once.
    pub with_marks: u64,
    pub marks: u64,
    pub deepest: u64,
    /// Messages that are cut short, and those with an isolate open in what the
    /// text has when the 101st placeable is begun.
    pub cut: u64,
    pub inside: u64,
    /// The original Rust's own texts, counted for themselves.
    pub originals: u64,
    pub unpaired: u64,
    /// Inputs with marks in text elements, string literals, string arguments.
    pub noticed: [Noticed; 3],
}

/// Inputs with marks of one kind.
#[derive(Clone, Copy, Debug, Default, PartialEq, Eq)]
pub struct Noticed {
    pub cases: u64,
    pub finished: u64,
    pub unpaired: u64,
    /// Those of them with as many of each on the whole: only a prefix shows it.
    pub by_a_prefix: u64,
}

/// From so many cases of a kind on, one at least has to be unpaired.
const SENSIBLE: u64 = 200;

const KIND_NAMES: [&str; 3] = ["text elements", "string literals", "string arguments"];

impl Nesting {
    /// Counts a text that has to be paired. `open` says of each of its messages
    /// how many isolates are open where it is cut short, if it is.
    pub fn count(&mut self, text: &[u8], open: &[Option<usize>]) -> Result<(), String> {
        let marks = self.pairs(text)?;
        self.texts += 1;
        self.with_marks += u64::from(marks.all() > 0);
        self.marks += marks.all() as u64;
        self.deepest = self.deepest.max(marks.deepest as u64);
        self.cut += open.iter().flatten().count() as u64;
        self.inside += open.iter().flatten().filter(|open| **open > 0).count() as u64;
        Ok(())
    }

    /// The same of an input with damaged bytes.
    pub fn damaged(&mut self, text: &[u8], open: &[Option<usize>]) -> Result<(), String> {
        self.count(text, open)?;
        self.from_damaged += 1;
        Ok(())
    }

    /// The original Rust's own text.
    pub fn original(&mut self, text: &[u8]) -> Result<(), String> {
        self.pairs(text)?;
        self.originals += 1;
        Ok(())
    }

    fn pairs(&mut self, text: &[u8]) -> Result<Marks, String> {
        let marks = paired(text);
        self.unpaired += u64::from(marks.is_err());
        marks
    }

    pub fn add(&mut self, other: &Self) {
        self.texts += other.texts;
        self.from_damaged += other.from_damaged;
        self.left_out += other.left_out;
        self.with_marks += other.with_marks;
        self.marks += other.marks;
        self.deepest = self.deepest.max(other.deepest);
        self.cut += other.cut;
        self.inside += other.inside;
        self.originals += other.originals;
        self.unpaired += other.unpaired;
        for (sum, more) in self.noticed.iter_mut().zip(other.noticed) {
            sum.cases += more.cases;
            sum.finished += more.finished;
            sum.unpaired += more.unpaired;
            sum.by_a_prefix += more.by_a_prefix;
        }
    }

    /// Whether marks of each kind were noticed, where there were enough cases.
    pub fn noticed(&self) -> bool {
        let mut kinds = self.noticed.iter();
        kinds.all(|kind| kind.cases < SENSIBLE || kind.unpaired > 0)
    }
}

impl Noticed {
    /// A case with these marks in its text, or one that is refused.
    pub fn meet(&mut self, marks: Option<Marks>) {
        self.cases += 1;
        self.finished += u64::from(marks.is_some());
        if let Some(marks) = marks.filter(|marks| !marks.paired()) {
            self.unpaired += 1;
            self.by_a_prefix += u64::from(marks.opening == marks.closing);
        }
    }
}

impl fmt::Display for Nesting {
    fn fmt(&self, f: &mut fmt::Formatter) -> fmt::Result {
        if self.texts > 0 {
            writeln!(
                f,
                "marks: {} texts finished, {} of them from damaged bytes ({} more have marks in the input then); {} of the original Rust",
                self.texts, self.from_damaged, self.left_out, self.originals
            )?;
            writeln!(
                f,
                "marks: {} texts with marks, {} marks in all, at most {} open at once",
                self.with_marks, self.marks, self.deepest
            )?;
            writeln!(
                f,
                "marks: {} messages cut short, {} of them inside an open isolate; {} unpaired",
                self.cut, self.inside, self.unpaired
            )?;
        }
        for (kind, name) in self.noticed.iter().zip(KIND_NAMES) {
            if kind.cases > 0 {
                writeln!(
                    f,
                    "marks in {name}: {} cases, {} finished, {} unpaired, {} of them with as many of each",
                    kind.cases, kind.finished, kind.unpaired, kind.by_a_prefix
                )?;
            }
        }
        Ok(())
    }
}
