//! What was counted of choices by numbers.

use crate::near::Tally;
use crate::Counts;
use harness::model::number::Seen;
use harness::model::plural_table::{Choices, CATEGORIES};
use harness::model::resolve::Resolution;
use std::fmt;

/// Texts by their choices.
#[derive(Clone, Copy, Debug, Default, PartialEq, Eq)]
pub struct Plurals {
    /// Formattings and sheets, finished or not.
    pub cases: u64,
    /// Finished texts, and those with a choice by a category.
    pub texts: u64,
    pub texts_choosing: u64,
    /// Those of them that are the original's own.
    pub originals: u64,
    /// Selectors of finished texts that are numbers.
    pub selectors: u64,
    /// Those whose category is asked, by their ways and categories.
    pub choices: Choices,
    /// Finished texts of inputs with damaged bytes, and those with such a choice.
    pub from_damaged: u64,
    pub from_damaged_choosing: u64,
}

/// From so many cases on, each way and each category has to be there.
const SENSIBLE: u64 = 200;

impl Tally for Plurals {
    type Seen = Seen;

    fn see(seen: &mut Seen, message: &Resolution) {
        seen.add(message.numbers);
    }

    fn of(counts: &mut Counts) -> &mut Self {
        &mut counts.plurals
    }

    fn case(&mut self) {
        self.cases += 1;
    }

    fn finished(&mut self, seen: Seen, original: bool) {
        let choosing = seen.choices.asked > 0;
        self.texts += 1;
        self.texts_choosing += u64::from(choosing);
        self.originals += u64::from(choosing && original);
        self.selectors += seen.selectors as u64;
        self.choices.add(&seen.choices);
    }

    fn damaged(&mut self, seen: Seen) {
        self.from_damaged += 1;
        self.from_damaged_choosing += u64::from(seen.choices.asked > 0);
    }
}

impl Plurals {
    /// What was counted elsewhere, too.
    pub fn add(&mut self, other: &Self) {
        self.cases += other.cases;
        self.texts += other.texts;
        self.texts_choosing += other.texts_choosing;
        self.originals += other.originals;
        self.selectors += other.selectors;
        self.choices.add(&other.choices);
        self.from_damaged += other.from_damaged;
        self.from_damaged_choosing += other.from_damaged_choosing;
    }

    /// Whether each way and each category was there, where there were enough cases.
    pub fn told(&self) -> bool {
        let mut counts = self.choices.ways.iter().chain(&self.choices.categories);
        self.cases < SENSIBLE || counts.all(|n| *n > 0)
    }
}

impl fmt::Display for Plurals {
    fn fmt(&self, f: &mut fmt::Formatter) -> fmt::Result {
        if self.cases == 0 {
            return Ok(());
        }
        writeln!(
            f,
            "plurals: {} texts with a choice by a category, {} of them the original Rust's own; {} texts finished",
            self.texts_choosing, self.originals, self.texts
        )?;
        let Choices {
            asked,
            taken,
            ways: [below, from, zeros, fraction],
            categories,
        } = self.choices;
        writeln!(
            f,
            "plurals: {} choices by a number, {asked} of them by its category: {below} by the table below 100, {from} by the table of 100 and more, {} by the conditions ({zeros} whole with v above 0, {fraction} with a fraction)",
            self.selectors, zeros + fraction
        )?;
        let words = CATEGORIES.iter().zip(categories);
        let words: Vec<String> = words.map(|(word, n)| format!("{word} {n}")).collect();
        writeln!(
            f,
            "plurals: {}; {taken} took a variant of their category",
            words.join(", ")
        )?;
        writeln!(
            f,
            "plurals: {} texts finished from damaged bytes, {} of them with such a choice",
            self.from_damaged, self.from_damaged_choosing
        )
    }
}
