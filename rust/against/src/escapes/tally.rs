//! What was counted of escapes.

use crate::near::Tally;
use crate::Counts;
use harness::model::escapes::Escapes as Seen;
use harness::model::resolve::Resolution;
use std::fmt;

/// Texts by the escapes that were read for them.
#[derive(Clone, Copy, Debug, Default, PartialEq, Eq)]
pub struct Escapes {
    /// Formattings and sheets, finished or not.
    pub cases: u64,
    /// Finished texts, and those for which an escape was read.
    pub texts: u64,
    pub texts_reading: u64,
    /// Those of them that are the original's own.
    pub originals: u64,
    /// The escapes that were read for finished texts.
    pub escapes: Seen,
    /// Finished texts of inputs with damaged bytes, and those for which an escape was
    /// read.
    pub from_damaged: u64,
    pub from_damaged_reading: u64,
    pub changed: Changed,
}

/// Calls in which one digit of an escape was changed.
#[derive(Clone, Copy, Debug, Default, PartialEq, Eq)]
pub struct Changed {
    /// To another digit, and the text, or the refusal, is another one.
    pub other: u64,
    /// To another digit, and the text, or the refusal, is the same.
    pub same: u64,
    /// To what is no digit, and the store is refused.
    pub refused: u64,
}

/// From so many cases on, each of the 22 digits has to be there.
const SENSIBLE: u64 = 20;

impl Tally for Escapes {
    type Seen = Seen;

    fn see(seen: &mut Seen, message: &Resolution) {
        seen.add(&message.escapes);
    }

    fn of(counts: &mut Counts) -> &mut Self {
        &mut counts.escapes
    }

    fn case(&mut self) {
        self.cases += 1;
    }

    fn finished(&mut self, seen: Seen, original: bool) {
        let reading = seen.all() > 0;
        self.texts += 1;
        self.texts_reading += u64::from(reading);
        self.originals += u64::from(reading && original);
        self.escapes.add(&seen);
    }

    fn damaged(&mut self, seen: Seen) {
        self.from_damaged += 1;
        self.from_damaged_reading += u64::from(seen.all() > 0);
    }
}

impl Escapes {
    /// What was counted elsewhere, too.
    pub fn add(&mut self, other: &Self) {
        self.cases += other.cases;
        self.texts += other.texts;
        self.texts_reading += other.texts_reading;
        self.originals += other.originals;
        self.escapes.add(&other.escapes);
        self.from_damaged += other.from_damaged;
        self.from_damaged_reading += other.from_damaged_reading;
        self.changed.other += other.changed.other;
        self.changed.same += other.changed.same;
        self.changed.refused += other.changed.refused;
    }

    /// Whether each digit was there, where there were enough cases.
    pub fn told(&self) -> bool {
        self.cases < SENSIBLE || self.escapes.fewest() > 0
    }
}

impl fmt::Display for Escapes {
    fn fmt(&self, f: &mut fmt::Formatter) -> fmt::Result {
        if self.cases == 0 {
            return Ok(());
        }
        writeln!(
            f,
            "escapes: {} texts with an escape, {} of them the original Rust's own; {} texts finished",
            self.texts_reading, self.originals, self.texts
        )?;
        let Seen {
            short,
            long,
            replaced,
            ..
        } = self.escapes;
        writeln!(
            f,
            "escapes: {} escapes read, {short} with \\u and {long} with \\U, {replaced} of them no scalar, so U+FFFD; each of the 22 digits at least {} times",
            self.escapes.all(), self.escapes.fewest()
        )?;
        let Changed {
            other,
            same,
            refused,
        } = self.changed;
        writeln!(
            f,
            "escapes: {} digits changed to another one, {other} of them gave another text or refusal, {same} the same; {refused} to what is no digit, all refused",
            other + same
        )?;
        writeln!(
            f,
            "escapes: {} texts finished from damaged bytes, {} of them with an escape",
            self.from_damaged, self.from_damaged_reading
        )
    }
}
