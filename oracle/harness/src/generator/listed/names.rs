//! Names of arguments: near to one another, 1 to 255 bytes long, sorted.

use super::super::words::VARIABLES;
use crate::random::Random;
use std::collections::BTreeSet;

const FIRST: &[u8] = b"ABCDEFGHIJKLMNOPQRSTUVWXYZabcdefghijklmnopqrstuvwxyz";
const NEXT: &[u8] = b"-0123456789ABCDEFGHIJKLMNOPQRSTUVWXYZ_abcdefghijklmnopqrstuvwxyz";

/// The most bytes that the names of an image take with what stands around them,
/// values of some bytes included; so a few more arguments still fit.
const ROOM: usize = 60_000;

/// What an argument takes beside its name, at most.
const VALUE: usize = 15;

/// Some names: most times a few, seldom hundreds, thousands, or as many as fit.
pub(super) fn any(r: &mut Random) -> Vec<String> {
    let count = match r.below(200) {
        _ if r.one_in(500) => return most(10_000 + r.below(1_200)),
        0..=9 => 0,
        10..=99 => 1 + r.below(8),
        100..=179 => 2 + r.below(40),
        180..=195 => 41 + r.below(300),
        _ => 257 + r.below(1_744),
    };
    some(r, count)
}

/// So many names, or as many as there is room for.
pub(super) fn some(r: &mut Random, count: usize) -> Vec<String> {
    let mut held: Vec<Vec<u8>> = Vec::new();
    let mut seen = BTreeSet::new();
    let mut bytes = 0;
    // Some of them long: then they share all but their last bytes.
    let longest = *r.pick(&[2, 4, 8, 8, 30, 255]);
    let mut tries = 0;
    while held.len() < count && tries < 20 * count {
        tries += 1;
        let name = match held.is_empty() {
            true => fresh(r, longest),
            false => {
                let at = r.below(held.len());
                near_to(r, &held[at], longest)
            }
        };
        if bytes + name.len() + VALUE > ROOM {
            break;
        }
        if seen.insert(name.clone()) {
            bytes += name.len() + VALUE;
            held.push(name);
        }
    }
    seen.into_iter().map(text).collect()
}

/// The variables of the usual cases and names near to them, some of each.
pub(super) fn near(r: &mut Random) -> Vec<String> {
    let mut names = BTreeSet::new();
    for variable in VARIABLES {
        if !r.one_in(4) {
            names.insert(variable.as_bytes().to_vec());
        }
        for _ in 0..r.below(3) {
            names.insert(near_to(r, variable.as_bytes(), 4));
        }
    }
    names.into_iter().map(text).collect()
}

/// So many of the shortest names there are, in order.
pub(crate) fn most(count: usize) -> Vec<String> {
    let mut names: Vec<Vec<u8>> = FIRST.iter().map(|b| vec![*b]).collect();
    let mut at = 0;
    while names.len() < count {
        for byte in NEXT {
            let longer = [&names[at][..], &[*byte]].concat();
            names.push(longer);
        }
        at += 1;
    }
    names.truncate(count);
    names.sort();
    names.into_iter().map(text).collect()
}

fn fresh(r: &mut Random, longest: usize) -> Vec<u8> {
    let mut name = vec![*r.pick(FIRST)];
    let length = match r.one_in(4) {
        true => longest,
        false => 1 + r.below(longest),
    };
    while name.len() < length {
        name.push(*r.pick(NEXT));
    }
    name
}

/// A name that differs in one byte, is one byte longer or shorter, or another.
fn near_to(r: &mut Random, name: &[u8], longest: usize) -> Vec<u8> {
    let mut near = name.to_vec();
    match r.below(10) {
        0..=3 => {
            let at = r.below(near.len());
            near[at] = match at {
                0 => *r.pick(FIRST),
                _ => *r.pick(NEXT),
            };
        }
        4 | 5 if near.len() < longest => near.push(*r.pick(NEXT)),
        6 if near.len() < longest => near.push(b'-'),
        7 | 8 if near.len() > 1 => near.truncate(near.len() - 1),
        _ => return fresh(r, longest),
    }
    near
}

fn text(name: Vec<u8>) -> String {
    String::from_utf8(name).expect("it is ASCII")
}
