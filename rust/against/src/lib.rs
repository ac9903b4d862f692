//! The crate `weszlagyo` held against the oracle: the original Rust, and the
//! model where the Rust has no counterpart.
#![forbid(unsafe_code)]

pub mod additions;
mod asked;
mod call;
pub mod choices;
pub mod convert;
pub mod escapes;
pub mod figures;
pub mod formats;
pub mod fractions;
pub mod literals;
pub mod many;
mod near;
pub mod nesting;
pub mod numbers;
pub mod order;
pub mod plurals;
pub mod sheet;
pub mod sheets;
mod wanted;
pub mod workspace;

pub use near::Tally;

use harness::random::Random;
use std::fmt::Debug;

/// The highest number that a refusal of an operation has.
pub const HIGHEST_REFUSAL: usize = 19;

/// What was compared.
#[derive(Clone, Copy, Debug, Default)]
pub struct Counts {
    /// Generated cases, sheets, or formattings and sheets by their figures, by their
    /// marks, by the order of their arguments, by their fraction digits, by their
    /// choices or by their escapes.
    pub cases: u64,
    /// Calls of the operations that were compared, bytes and all.
    pub calls: u64,
    /// Calls by their answer: 0 done, or the refusal's number.
    pub answers: [u64; HIGHEST_REFUSAL + 1],
    /// Calls that were lent a store, image, arguments image, sheet, id or attribute
    /// whose bytes were changed from what the generator made; each once.
    pub damaged: u64,
    /// Stores that the crate made and that were compared whole.
    pub stores: u64,
    /// Texts by their isolation marks.
    pub nesting: nesting::Nesting,
    /// Calls by the order of their arguments.
    pub order: order::Order,
    /// Texts by the dots of their numbers.
    pub fractions: fractions::Fractions,
    /// Texts by their choices by numbers.
    pub plurals: plurals::Plurals,
    /// Texts by the escapes of their string literals.
    pub escapes: escapes::Escapes,
}

impl Counts {
    pub fn call(&mut self, answer: u8) {
        self.calls += 1;
        self.answers[usize::from(answer)] += 1;
    }

    pub fn add(&mut self, other: &Self) {
        self.cases += other.cases;
        self.calls += other.calls;
        self.damaged += other.damaged;
        self.stores += other.stores;
        self.nesting.add(&other.nesting);
        self.order.add(&other.order);
        self.fractions.add(&other.fractions);
        self.plurals.add(&other.plurals);
        self.escapes.add(&other.escapes);
        for (sum, n) in self.answers.iter_mut().zip(other.answers) {
            *sum += n;
        }
    }
}

/// Compares everything on the case of a seed, or says what differs.
pub fn compare(seed: u64, counts: &mut Counts) -> Result<(), String> {
    let case = harness::generator(seed);
    let expected = harness::expected(&case)?;
    let mut random = Random::new(seed ^ 0x5EED_0F0D);
    counts.cases += 1;
    let bundle = additions::by_the_crate(&case, &expected, counts)?;
    formats::by_the_crate(&case, &expected, &bundle, counts)?;
    formats::by_lengths(&case, &expected, &mut random, counts)?;
    formats::damaged(&case, &expected, &mut random, counts)?;
    additions::by_lengths(&case, &expected, &mut random, counts)
}

/// Compares everything on the sheet of a seed, or says what differs.
pub fn compare_sheet(seed: u64, counts: &mut Counts) -> Result<(), String> {
    let case = harness::sheet_generator(seed);
    let expected = harness::expected_sheet(&case)?;
    let mut random = Random::new(seed ^ 0x5EE7_0F0D);
    counts.cases += 1;
    sheets::by_the_crate(&case, &expected, counts)?;
    sheets::by_lengths(&expected, &mut random, counts)?;
    sheets::damaged(&expected, &mut random, counts)
}

pub(crate) fn same<T: PartialEq + Debug>(what: &str, ours: T, theirs: T) -> Result<(), String> {
    match ours == theirs {
        true => Ok(()),
        false => Err(format!("{what}: {ours:?} is not {theirs:?}")),
    }
}

/// The byte that stands in a buffer before a call.
pub(crate) const BEFORE: u8 = 0xAA;

/// A buffer that is lent by itself, so that valgrind sees its ends, or from
/// some odd place of a larger one, where the bytes around it must stay.
pub(crate) struct Lent {
    bytes: Vec<u8>,
    start: usize,
    length: usize,
}

impl Lent {
    pub fn new(length: usize, random: &mut Random) -> Self {
        Self::with(&vec![BEFORE; length], random)
    }

    pub fn with(bytes: &[u8], random: &mut Random) -> Self {
        let (start, rest) = match random.one_in(2) {
            true => (0, 0),
            false => (random.below(17), random.below(17)),
        };
        let mut all = Vec::with_capacity(start + bytes.len() + rest);
        all.resize(start, BEFORE);
        all.extend_from_slice(bytes);
        all.resize(start + bytes.len() + rest, BEFORE);
        Self {
            bytes: all,
            start,
            length: bytes.len(),
        }
    }

    pub fn slice(&mut self) -> &mut [u8] {
        &mut self.bytes[self.start..self.start + self.length]
    }

    /// What it holds, if nothing around it changed.
    pub fn held(&self) -> Result<&[u8], String> {
        let end = self.start + self.length;
        let around = self.bytes[..self.start].iter().chain(&self.bytes[end..]);
        match around.copied().all(|b| b == BEFORE) {
            true => Ok(&self.bytes[self.start..end]),
            false => Err("a byte beside a lent buffer was written".into()),
        }
    }
}

/// Changes, cuts or lengthens some bytes, and says whether they are others
/// then.
pub(crate) fn hurt(random: &mut Random, bytes: &mut Vec<u8>) -> bool {
    let before = bytes.clone();
    for _ in 0..1 + random.below(2) {
        match random.below(6) {
            0 => bytes.truncate(random.below(bytes.len() + 1)),
            1 => bytes.push(random.below(256) as u8),
            _ if bytes.is_empty() => {}
            2 => {
                let at = random.below(bytes.len());
                bytes[at] = random.below(256) as u8;
            }
            3 => {
                let at = random.below(bytes.len());
                bytes[at] = bytes[at].wrapping_add(1);
            }
            4 => {
                let at = random.below(bytes.len());
                bytes[at] ^= 1 << random.below(8);
            }
            _ => {
                let at = random.below(bytes.len());
                bytes.remove(at);
            }
        }
    }
    *bytes != before
}
