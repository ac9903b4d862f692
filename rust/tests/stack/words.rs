//! Words over the levels, and the patterns that each of them gives.

use super::shapes::{is_legal, letters, Level, Nest, DEPTH};
use Level::{Call, Message, Placeable, Selector, Term, TermCall, TermReference, Variant};

/// All levels.
const LEVELS: [Level; 8] = [
    Call,
    Term,
    Selector,
    Placeable,
    Variant,
    Message,
    TermReference,
    TermCall,
];

/// The longest period of a word.
const PERIOD: usize = 4;

/// Patterns that follow each other again and again.
#[derive(Clone, Debug, PartialEq, Eq)]
pub struct Block(pub Vec<Nest>);

impl Block {
    /// How many levels it has.
    pub fn levels(&self) -> usize {
        self.0.iter().map(Vec::len).sum()
    }

    /// The letters of its patterns.
    pub fn letters(&self) -> String {
        let parts: Vec<String> = self.0.iter().map(|nest| letters(nest)).collect();
        parts.join(" ")
    }
}

/// All words of a length.
fn words(length: usize) -> Vec<Vec<Level>> {
    (0..length).fold(vec![Vec::new()], |shorter, _| {
        let longer = |word: &Vec<Level>| {
            let word = word.clone();
            LEVELS.map(move |level| [word.as_slice(), &[level]].concat())
        };
        shorter.iter().flat_map(longer).collect()
    })
}

/// Levels with an inline placeable, which is a level too, around each select
/// that stands where none can.
fn legal(levels: impl Iterator<Item = Level>) -> Nest {
    levels.fold(Nest::new(), |mut nest, level| {
        nest.push(level);
        if !is_legal(&nest) {
            nest.insert(nest.len() - 1, Placeable);
        }
        nest
    })
}

/// The word repeated to the nesting limit, with `last` at the deepest place.
fn filled(word: &[Level], last: Level) -> Nest {
    let mut nest = legal(word.iter().cycle().take(DEPTH).copied());
    nest.truncate(DEPTH - 1);
    nest.push(last);
    nest
}

/// The patterns of a word: without a reference it is repeated to the nesting
/// limit, where any reference stands; else each reference ends a pattern. (A
/// word that ends with none is the same as one that does, begun elsewhere.)
fn blocks_of(word: &[Level]) -> Vec<Block> {
    if !word.iter().any(|level| level.refers()) {
        let references = LEVELS.into_iter().filter(|level| level.refers());
        return references
            .map(|last| Block(vec![filled(word, last)]))
            .collect();
    }
    if !word.last().is_some_and(|level| level.refers()) {
        return Vec::new();
    }
    let nests = word.split_inclusive(|level| level.refers());
    vec![Block(
        nests.map(|nest| legal(nest.iter().copied())).collect(),
    )]
}

/// The blocks of all words up to the longest period, each once.
pub fn blocks() -> Vec<Block> {
    blocks_up_to(PERIOD)
}

/// The blocks of all words up to that period, each once.
pub fn blocks_up_to(period: usize) -> Vec<Block> {
    let words = (1..=period).flat_map(words);
    let mut blocks: Vec<Block> = words.flat_map(|word| blocks_of(&word)).collect();
    blocks.sort_by_cached_key(Block::letters);
    blocks.dedup();
    blocks
}

/// The pattern with one level changed to another, in every legal way.
pub fn neighbours(nest: &Nest) -> Vec<Nest> {
    let places = 0..nest.len() - 1;
    let changed = places.flat_map(|at| {
        LEVELS
            .iter()
            .filter(|level| !level.refers())
            .map(move |level| {
                let mut other = nest.clone();
                other[at] = *level;
                other
            })
    });
    changed.filter(|nest| is_legal(nest)).collect()
}
