//! The sources of bundles that are full of one kind of thing: always the same messages
//! and terms, which refer to those further on.

use crate::random::Random;
use std::marker::PhantomData;

/// A source being made.
pub(super) struct Source<'r, K> {
    pub r: &'r mut Random,
    /// How many more placeables may be made.
    left: usize,
    kind: PhantomData<K>,
}

/// How the entries of one kind are written.
pub(super) trait Written: Sized {
    /// Text among the placeables of a pattern.
    const AMONG: &'static [&'static str];

    /// How many placeables a source may have, at the least; at the most 15 more.
    const PLACEABLES: usize;

    /// All entries: the messages `a`, with an attribute `x`, `b` and `c` and the terms
    /// `t` and `u`, and perhaps others.
    fn entries(source: Source<Self>) -> String;

    /// A pattern of one to four elements, with references to these.
    fn pattern(source: &mut Source<Self>, refers: &[&str]) -> String {
        let mut out = source.placeable(refers, 0);
        for _ in 0..source.r.below(4) {
            out += &match source.r.one_in(3) {
                true => source.word(Self::AMONG),
                false => source.placeable(refers, 0),
            };
        }
        out
    }

    /// What stands in a placeable, with references to these.
    fn expression(source: &mut Source<Self>, refers: &[&str], depth: usize) -> String;

    /// A reference to a term, most times with arguments of its own.
    fn term(source: &mut Source<Self>, name: &str) -> String;
}

impl<'r, K: Written> Source<'r, K> {
    pub fn new(r: &'r mut Random) -> Self {
        let left = K::PLACEABLES + r.below(16);
        Self {
            r,
            left,
            kind: PhantomData,
        }
    }

    pub fn word(&mut self, words: &[&str]) -> String {
        self.r.pick(words).to_string()
    }

    /// All entries of a bundle, with what the values of `a` and of `-u` begin with.
    pub fn all(mut self, first: &str, first_of_u: &str) -> String {
        let a = K::pattern(&mut self, &["b", "c", "b.x", "-t", "-u", "-t.x", "zz"]);
        let x = K::pattern(&mut self, &["b", "c", "-t"]);
        let b = K::pattern(&mut self, &["c", "-t", "-u"]);
        let b_x = self.placeable(&["-u", "-t.x"], 1);
        let c = self.third();
        let t = K::pattern(&mut self, &["-u"]);
        let t_x = self.placeable(&["-u"], 1);
        let u = K::pattern(&mut self, &[]);
        format!("a = {first}{a}\n.x = {x}\nb = {b}\n.x = {b_x}\nc = {c}\n-t = {t}\n.x = {t_x}\n-u = {first_of_u}{u}")
    }

    /// The value of `c`; in one of ten it refers back to `a`.
    pub fn third(&mut self) -> String {
        let back = match self.r.one_in(10) {
            true => "a",
            false => "-u",
        };
        K::pattern(self, &["-u", "-t", back])
    }

    /// Some entries once more.
    pub fn another(mut self) -> String {
        let b = K::pattern(&mut self, &["c", "-t"]);
        let u = K::pattern(&mut self, &[]);
        format!("b = {b}\n-u = {u}")
    }

    /// A placeable with references to these; once there are enough, a letter.
    pub fn placeable(&mut self, refers: &[&str], depth: usize) -> String {
        if self.left == 0 {
            return "w".into();
        }
        self.left -= 1;
        format!("{{ {} }}", K::expression(self, refers, depth))
    }

    /// A reference to one of these.
    pub fn reference(&mut self, refers: &[&str]) -> String {
        let name = self.word(refers);
        match name.starts_with('-') {
            true => K::term(self, &name),
            false => name,
        }
    }
}
