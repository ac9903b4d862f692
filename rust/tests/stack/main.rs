//! What the operations use of the stack: measured, and held to what
//! `weszlagyo::stack` says of it.
//!
//! The deepest formattings are 100 patterns that refer to each other, of one
//! placeable each, as a formatting begins no more; each nested to depth 32. The
//! shapes are all words of 1 to 4 letters over the ways in which one thing can
//! stand inside another (`shapes.rs`), each repeated to the limits. What a
//! pattern adds is measured for all of them, on chains of two and of three. The
//! deepest are measured whole; then they are changed level by level as long as
//! that makes them deeper, and get whatever can stand at the deepest place, and
//! any last pattern. In the end all words are run whole on a stack that has just
//! what is said. Sheets are measured and run with the deepest words, as each of
//! their messages is formatted by itself.
//!
//!     cargo test --release --offline --test stack -- --nocapture
//!
//! prints the deepest. `WESZLAGYO_LIB` names the folder of another archive.

mod additions;
#[path = "../../src/ffi.rs"]
mod ffi;
mod formats;
mod paint;
mod shapes;
mod threads;
mod words;

use formats::{bottoms, deepest_near, measured, measured_sheet, Reckoned};
use paint::{on_thread, START};
use shapes::{Chain, Level, Nest, DEPTH};
use std::cmp::Reverse;
use weszlagyo::stack::{ADDITION, FORMAT};
use weszlagyo::Refusal;

/// More than any formatting uses, whatever is said.
const ROOM: usize = 24 << 20;

/// How many words are measured whole and printed.
const DEEPEST: usize = 10;

/// All words, the deepest first.
fn reckoned() -> Vec<Reckoned> {
    let mut all: Vec<Reckoned> = words::blocks().into_iter().map(Reckoned::new).collect();
    all.sort_by_key(|reckoned| Reverse(reckoned.bytes));
    all
}

/// What the chain of a word uses, printed.
fn printed(word: &Reckoned) -> usize {
    let bytes = measured(&Chain::whole(&word.block.0), ROOM);
    let (level, letters) = (word.of_a_level(), word.block.letters());
    println!("{bytes:>9} {level:>5}  {letters}");
    bytes
}

/// The most that a chain of these patterns uses, whatever stands at its end.
fn with_any_end(nest: &Nest) -> usize {
    let ending = bottoms()
        .into_iter()
        .map(|bottom| Chain::ending(nest, bottom));
    let passing = words::blocks_up_to(2);
    let passing = passing
        .iter()
        .map(|block| Chain::passing(nest, &block.0[0]));
    let used = ending.chain(passing).map(|chain| measured(&chain, ROOM));
    used.max().expect("some")
}

#[test]
fn formattings() {
    let all = on_thread(ROOM + (1 << 20), || {
        let all = reckoned();
        println!("stack of a formatting, and of a level: C call, T term, S selector,");
        println!("P inline placeable, V variant; references: m message, t and u term");
        let deepest = all.iter().take(DEEPEST).map(printed).max();
        let mut patterns = all.iter().map(|word| &word.block.0[0]);
        let deepest_pattern = patterns.find(|nest| nest.len() == DEPTH);
        let near = deepest_near(deepest_pattern.expect("some"));
        let with_ends = printed(&near).max(with_any_end(&near.block.0[0]));
        let most = with_ends.max(deepest.expect("some"));
        println!(
            "{most} is the most, of {} words; {FORMAT} is said",
            all.len()
        );
        assert!(most <= FORMAT, "{most} bytes, and {FORMAT} are said");
        let sheets = all.iter().take(DEEPEST).chain([&near]);
        let sheets = sheets.map(|word| measured_sheet(&Chain::whole(&word.block.0), ROOM));
        let most = sheets.max().expect("some");
        println!("{most} is the most of a sheet; {FORMAT} is said");
        assert!(most <= FORMAT, "{most} bytes, and {FORMAT} are said");
        all
    });
    on_thread(FORMAT + START, || {
        for word in &all {
            formats::run(&Chain::whole(&word.block.0));
        }
        for word in all.iter().take(DEEPEST) {
            formats::run_sheet(&Chain::whole(&word.block.0));
        }
    });
}

/// The levels of the words stand for the depth that they are meant to have.
#[test]
fn one_level_more_is_refused() {
    for block in words::blocks() {
        let nest = &block.0[0];
        let more = vec![Level::Placeable; DEPTH + 1 - nest.len()];
        let deeper = [more, nest.clone()].concat();
        assert!(Chain::new(&[deeper[1..].to_vec()], 1).bundle().is_ok());
        let refused = Chain::new(&[deeper], 1).bundle().map(|_| ());
        assert_eq!(refused, Err(Refusal::MALFORMED_RESOURCE));
    }
}

#[test]
fn additions() {
    // what is added is checked, and calls itself for what is nested
    let deep = words::blocks_up_to(2).into_iter();
    let deep: Vec<Chain> = deep.map(|block| Chain::new(&block.0, 2)).collect();
    let resources = deep.iter().map(|chain| chain.resource().expect("legal"));
    let mut images = additions::images();
    images.extend(resources.map(|resource| resource.image().to_vec()));
    on_thread(8 << 20, || {
        let added = images.iter().map(|image| additions::measured(image));
        let most = added.chain(deep.iter().map(formats::refused)).max();
        let most = most.expect("some");
        println!("{most} is the most of an addition; {ADDITION} is said");
        assert!(most <= ADDITION, "{most} bytes, and {ADDITION} are said");
    });
    on_thread(ADDITION + START, || {
        images.iter().for_each(|image| additions::run(image));
    });
}
