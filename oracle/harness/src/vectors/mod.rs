//! The vector files; oracle/README.md gives their format.

pub mod additions;
pub mod arguments;
pub mod categories;
pub mod escapes;
pub mod figures;
pub mod formats;
pub mod fractions;
pub mod images;
pub mod nesting;
pub mod numbers;
pub mod sheets;

use crate::bytes::Write;
use std::collections::{BTreeMap, HashSet};

/// The default size of a run, in formatting cases; the other files grow with it.
pub const CASES: usize = 2400;

/// More than what a case has beside slices, images, texts and lists.
const FIELDS: usize = 100;

/// A file being made: cases one after the other.
#[derive(Default)]
pub struct File {
    count: usize,
    body: Vec<u8>,
    longest: usize,
    operations: BTreeMap<u8, usize>,
    seen: HashSet<Vec<u8>>,
}

impl File {
    /// Adds a case unless the same one is there already.
    pub fn case(&mut self, operation: u8, fields: Vec<u8>) -> bool {
        let mut case = vec![operation];
        case.raw(&fields);
        if !self.seen.insert(case.clone()) {
            return false;
        }
        self.longest = self.longest.max(case.len());
        self.body.blob(case);
        self.count += 1;
        *self.operations.entry(operation).or_default() += 1;
        true
    }

    pub fn count(&self) -> usize {
        self.count
    }

    /// How many cases of each operation there are.
    pub fn operations(&self) -> &BTreeMap<u8, usize> {
        &self.operations
    }

    /// The length of the longest case, its operation included.
    pub fn longest(&self) -> usize {
        self.longest
    }

    pub fn bytes(self) -> Vec<u8> {
        let mut out = b"WVEC\x01".to_vec();
        out.u32(self.count);
        out.raw(&self.body);
        out
    }
}

/// What makes a file's cases from seeds.
trait Seeded {
    fn file(&self) -> &File;

    /// Goes on from a seed until there are so many cases more; gives the seed
    /// after the last.
    fn until(&mut self, count: usize, from: u64, one: fn(&mut Self, u64)) -> u64 {
        let end = self.file().count() + count;
        let mut seed = from;
        while self.file().count() < end {
            seed += 1;
            one(self, seed);
        }
        seed
    }
}
