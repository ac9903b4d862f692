//! Arguments in name order: formattings and sheets as their arguments are listed,
//! which are refused where names do not ascend or a scale is not least; the same in
//! their accepted form, which finish as the original Rust does; and damaged ones.

mod fixed;
mod tally;

pub use fixed::by_hand;
pub use tally::Order;

use crate::asked::Asked;
use crate::call::Call;
use crate::{convert, hurt, same, sheets, Counts};
use harness::case::{Given, Row};
use harness::model::arguments::accepted;
use harness::model::effects::Lengths;
use harness::model::reader;
use harness::random::Random;
use harness::{encode, listed, listed_sheet, Listing};

/// Compares everything on a formatting of a seed, or says what differs.
pub fn compare_formatting(seed: u64, counts: &mut Counts) -> Result<(), String> {
    counts.cases += 1;
    let mut random = Random::new(seed ^ 0x19_0F0D);
    let made = listed(seed);
    let e = harness::expected(&made.case)?;
    counts.order.image(made.listing, made.listed.len());
    counts.order.asked(&made.places);
    // the crate's own arguments sort on insert, as the original's do
    let ours = convert::arguments(&made.listed).image();
    same("an image", ours.as_ref().ok(), Some(&e.arguments))?;
    let image = encode::listed(&made.listed);
    let plain = Call::new(e.store.clone(), Asked::message(&made.case));
    let wanted = e.answer.map(|done| (done.text, done.list));
    let pair = Pair {
        as_listed: Call::new(e.store, Asked::message_with(&made.case, image.clone())),
        plain,
        wanted,
        original: e.from_rust,
        refused: accepted(&image).is_err(),
    };
    pair.compare(&mut random, counts)
}

/// The same on a sheet of a seed.
pub fn compare_sheet(seed: u64, counts: &mut Counts) -> Result<(), String> {
    counts.cases += 1;
    let mut random = Random::new(seed ^ 0x195_0F0D);
    let made = listed_sheet(seed);
    let e = harness::expected_sheet(&made.sheet)?;
    let plain = harness::expected_sheet(&made.accepted)?;
    for (row, listing) in made.sheet.rows.iter().zip(&made.listings) {
        counts.order.image(*listing, count(row));
    }
    counts.order.asked(&made.places);
    sheets::by_the_crate(&made.accepted, &plain, counts)?;
    let wanted = plain.answer.map_err(|refused| refused.number());
    let listed = |listing: &Listing| *listing != Listing::Accepted;
    let pair = Pair {
        as_listed: Call::new(e.store, Asked::Sheet(e.sheet)),
        plain: Call::new(plain.store, Asked::Sheet(plain.sheet)),
        wanted: wanted.map(|done| (done.text, done.list)),
        original: plain.from_rust,
        refused: made.listings.iter().any(listed) && e.answer.is_err(),
    };
    pair.compare(&mut random, counts)
}

/// How many arguments a row has; none where they can't be read.
fn count(row: &Row) -> usize {
    match &row.arguments {
        Given::Values(values) => values.len(),
        Given::Bytes(bytes) => reader::arguments(bytes).map_or(0, |given| given.len()),
    }
}

/// A call as its arguments are listed, and in their accepted form.
struct Pair {
    as_listed: Call,
    plain: Call,
    /// Text and list of the accepted form, which are the oracle's, or its refusal.
    wanted: Result<(Vec<u8>, Vec<u8>), u8>,
    /// They are the original Rust's own.
    original: bool,
    /// As listed it is refused for its arguments, or for what comes before them.
    refused: bool,
}

impl Pair {
    fn compare(&self, random: &mut Random, counts: &mut Counts) -> Result<(), String> {
        self.accepted_form(random, counts)?;
        if self.refused {
            counts.order.refused(self.wanted.is_ok(), self.original);
        }
        self.as_listed(random, counts)?;
        damaged(&self.as_listed, random, counts)?;
        damaged(&self.plain, random, counts)
    }

    /// The accepted form finishes as the oracle, with ample buffers and with ones
    /// that just fit; or is refused alike.
    fn accepted_form(&self, random: &mut Random, counts: &mut Counts) -> Result<(), String> {
        let Some((_, need)) = self.plain.model.need() else {
            same("it finishes", self.wanted.is_err(), true)?;
            return self.plain.compare(some(random), random, counts);
        };
        let ample = Lengths {
            text: need.text + random.below(200),
            list: need.list + random.below(200),
            workspace: need.workspace + random.below(200),
        };
        for lengths in [ample, need] {
            let done = self.plain.finished(lengths, random, counts)?;
            let ours = (done.text, done.list);
            same("the accepted form", Ok(&ours), self.wanted.as_ref())?;
        }
        Ok(())
    }

    /// As it is listed: with what the accepted form needs, with more, with a list
    /// under 5 bytes, and with any lengths.
    fn as_listed(&self, random: &mut Random, counts: &mut Counts) -> Result<(), String> {
        let need = self.plain.model.need();
        let need = need.map_or(some(random), |(_, need)| need);
        let short = Lengths {
            list: random.below(5),
            ..need
        };
        let any = Lengths {
            text: random.below(need.text + 4),
            list: random.below(need.list + 4),
            workspace: random.below(need.workspace + 4),
        };
        for lengths in [need, short, any] {
            let answer = self.as_listed.answer(lengths, random, counts)?;
            if self.refused {
                same("it finishes", answer.is_err(), true)?;
            }
        }
        Ok(())
    }
}

/// Lengths that are enough for most.
fn some(random: &mut Random) -> Lengths {
    Lengths {
        text: 300 + random.below(200),
        list: 300 + random.below(200),
        workspace: random.below(100),
    }
}

/// The call with changed bytes, most times of arguments.
fn damaged(call: &Call, random: &mut Random, counts: &mut Counts) -> Result<(), String> {
    let (mut store, mut asked) = (call.store.clone(), call.asked.clone());
    let mut changed = match &mut asked {
        Asked::Message { arguments, .. } => hurt_image(random, arguments),
        Asked::Sheet(image) if random.one_in(3) => hurt_image(random, image),
        Asked::Sheet(image) => hurt_row(random, image),
    };
    if random.one_in(10) {
        changed |= hurt(random, &mut store);
    }
    if let (Asked::Message { id, .. }, true) = (&mut asked, random.one_in(10)) {
        changed |= hurt(random, id);
    }
    counts.damaged += u64::from(changed);
    let mut lengths = match call.model.need() {
        Some((_, need)) => need,
        None => some(random),
    };
    if random.one_in(4) {
        lengths.list = random.below(6);
    }
    Call::new(store, asked).compare(lengths, random, counts)
}

/// Changes some bytes of an image, which may state its own length then.
fn hurt_image(random: &mut Random, image: &mut Vec<u8>) -> bool {
    let changed = hurt(random, image);
    if random.one_in(3) {
        state(image);
    }
    changed
}

/// Changes some bytes of one arguments image of a sheet.
fn hurt_row(random: &mut Random, image: &mut Vec<u8>) -> bool {
    let Some(mut rows) = reader::sheet(image).filter(|rows| !rows.is_empty()) else {
        return hurt_image(random, image);
    };
    let at = random.below(rows.len());
    let changed = hurt(random, &mut rows[at].arguments);
    state(&mut rows[at].arguments);
    *image = encode::sheet(&rows);
    changed
}

/// The first four bytes state how many there are.
fn state(image: &mut [u8]) {
    let length = image.len() as u32;
    if let Some(stated) = image.get_mut(..4) {
        stated.copy_from_slice(&length.to_be_bytes());
    }
}
