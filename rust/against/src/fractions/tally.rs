//! What was counted of numbers and their dots.

use crate::near::Tally;
use crate::Counts;
use harness::model::number::Seen;
use harness::model::resolve::Resolution;
use std::fmt;

/// Texts by their numbers.
#[derive(Clone, Copy, Debug, Default, PartialEq, Eq)]
pub struct Fractions {
    /// Formattings and sheets, finished or not.
    pub cases: u64,
    /// Finished texts.
    pub texts: u64,
    /// Those with a number that the original Rust ends with a dot: a minimum of 0, and
    /// no fraction.
    pub texts_losing_dot: u64,
    /// Those of them that are the original's but for the dots.
    pub originals: u64,
    /// Texts of numbers, in the text or in the workspace, and those with such a dot.
    pub numbers: u64,
    pub numbers_losing_dot: u64,
    /// Selectors that are numbers, and those that are such a number.
    pub selectors: u64,
    pub selectors_losing_dot: u64,
    /// Finished texts of inputs with damaged bytes, and those with such a number.
    pub from_damaged: u64,
    pub from_damaged_losing_dot: u64,
}

/// From so many cases on, one text at least has to lose a dot.
const SENSIBLE: u64 = 20;

impl Tally for Fractions {
    type Seen = Seen;

    fn see(seen: &mut Seen, message: &Resolution) {
        seen.add(message.numbers);
    }

    fn of(counts: &mut Counts) -> &mut Self {
        &mut counts.fractions
    }

    fn case(&mut self) {
        self.cases += 1;
    }

    fn finished(&mut self, seen: Seen, original: bool) {
        let losing = seen.texts_losing_dot > 0;
        self.texts += 1;
        self.texts_losing_dot += u64::from(losing);
        self.originals += u64::from(losing && original);
        self.numbers += seen.texts as u64;
        self.numbers_losing_dot += seen.texts_losing_dot as u64;
        self.selectors += seen.selectors as u64;
        self.selectors_losing_dot += seen.selectors_losing_dot as u64;
    }

    fn damaged(&mut self, seen: Seen) {
        self.from_damaged += 1;
        self.from_damaged_losing_dot += u64::from(seen.texts_losing_dot > 0);
    }
}

impl Fractions {
    /// What was counted elsewhere, too.
    pub fn add(&mut self, other: &Self) {
        self.cases += other.cases;
        self.texts += other.texts;
        self.texts_losing_dot += other.texts_losing_dot;
        self.originals += other.originals;
        self.numbers += other.numbers;
        self.numbers_losing_dot += other.numbers_losing_dot;
        self.selectors += other.selectors;
        self.selectors_losing_dot += other.selectors_losing_dot;
        self.from_damaged += other.from_damaged;
        self.from_damaged_losing_dot += other.from_damaged_losing_dot;
    }

    /// Whether a dot was left out at all, where there were enough cases.
    pub fn told(&self) -> bool {
        self.cases < SENSIBLE || self.texts_losing_dot > 0
    }
}

impl fmt::Display for Fractions {
    fn fmt(&self, f: &mut fmt::Formatter) -> fmt::Result {
        if self.cases == 0 {
            return Ok(());
        }
        writeln!(
            f,
            "fractions: {} texts with a number that the original Rust ends with a dot, {} of them its own but for the dots; {} texts finished",
            self.texts_losing_dot, self.originals, self.texts
        )?;
        writeln!(
            f,
            "fractions: {} texts of numbers, {} of them with a minimum of 0 and no fraction",
            self.numbers, self.numbers_losing_dot
        )?;
        writeln!(
            f,
            "fractions: {} selectors are numbers, {} of them with a minimum of 0 and no fraction",
            self.selectors, self.selectors_losing_dot
        )?;
        writeln!(
            f,
            "fractions: {} texts finished from damaged bytes, {} of them with such a number",
            self.from_damaged, self.from_damaged_losing_dot
        )
    }
}
