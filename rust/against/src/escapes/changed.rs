//! A store with one digit of an escape changed: to another digit, and then it is
//! well-formed, or to what is none, and then it is refused.

use super::Escapes;
use crate::call::Call;
use crate::near::{seen, some, Tally};
use crate::wanted::Wanted;
use crate::{same, Counts};
use harness::model::escapes::DIGITS;
use harness::model::reader;
use harness::random::Random;

/// What stands beside the digits, and what has one bit more or less.
const BESIDE: &[u8] = b"/:@G`g\0 \"\\uUxyp!&\x10\x7F";

/// The place of a digit of an escape, if one is found; every other time one of the
/// first escapes, as most messages read those. What looks like an escape may be text
/// or have a second backslash before it; then any byte may stand there.
pub(super) fn place(store: &[u8], random: &mut Random) -> Option<usize> {
    let all = escapes(store);
    if all.is_empty() {
        return None;
    }
    let first = &all[..all.len().min(4)];
    for _ in 0..8 {
        let from = if random.one_in(2) { first } else { &all };
        let (at, count) = *random.pick(from);
        let mut other = store.to_vec();
        other[at] = b'~';
        if reader::store(&other).is_none() {
            return Some(at + random.below(count));
        }
    }
    None
}

/// The first digit and the number of digits of all that looks like an escape.
fn escapes(store: &[u8]) -> Vec<(usize, usize)> {
    let mut all = Vec::new();
    for (at, pair) in store.windows(2).enumerate() {
        let count = match pair {
            b"\\u" => 4,
            b"\\U" => 6,
            _ => continue,
        };
        let digits = store.get(at + 2..at + 2 + count);
        if digits.is_some_and(|all| all.iter().all(|byte| DIGITS.contains(byte))) {
            all.push((at + 2, count));
        }
    }
    all
}

/// The call with another byte at the place of a digit: the model's answer and bytes,
/// and never 4 with another digit, always 4 with none.
pub(super) fn compare(
    wanted: &Wanted,
    at: usize,
    random: &mut Random,
    counts: &mut Counts,
) -> Result<(), String> {
    let mut store = wanted.call.store.clone();
    let byte = match random.one_in(2) {
        true => another(store[at], random),
        false => none(store[at], random),
    };
    let is_digit = DIGITS.contains(&byte);
    store[at] = byte;
    let call = Call::new(store, wanted.call.asked.clone());
    let need = call.model.need();
    if need.is_some() {
        counts.escapes.damaged(seen::<Escapes>(&call.model));
    }
    let lengths = need.map_or_else(|| some(random), |(_, need)| need);
    counts.damaged += 1;
    let answer = call.answer(lengths, random, counts)?;
    let refused = answer.as_ref().err() == Some(&4);
    same("refused for a digit", refused, !is_digit)?;
    let changed = &mut counts.escapes.changed;
    let text = answer.as_ref().map(|done| &done.text);
    let before = wanted.said.as_ref().map(|(text, _)| text);
    match text {
        Err(4) => changed.refused += 1,
        _ if text == before => changed.same += 1,
        _ => changed.other += 1,
    }
    Ok(())
}

/// Another digit.
fn another(digit: u8, random: &mut Random) -> u8 {
    let others = DIGITS.iter().filter(|other| **other != digit);
    **random.pick(&others.collect::<Vec<_>>())
}

/// A byte that is no digit.
fn none(digit: u8, random: &mut Random) -> u8 {
    let byte = match random.below(4) {
        0 | 1 => *random.pick(BESIDE),
        2 => digit ^ 1 << random.below(8),
        _ => random.below(256) as u8,
    };
    match DIGITS.contains(&byte) {
        true => digit | 0x80,
        false => byte,
    }
}
