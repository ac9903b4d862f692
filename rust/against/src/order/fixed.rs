//! Arguments that are not left to chance: those worked out by hand, every change of
//! a rich image, and as many as fit.

use crate::asked::Asked;
use crate::call::Call;
use crate::{same, Counts};
use harness::encode;
use harness::model::effects::Lengths;
use harness::model::reader::Row;
use harness::order::{formattings, image, images, largest, sheets, store};
use harness::random::Random;

const LENT: Lengths = Lengths {
    text: 60,
    list: 60,
    workspace: 3,
};

/// All of them, or what differs.
pub fn by_hand(counts: &mut Counts) -> Result<(), String> {
    let mut random = Random::new(19);
    for image in images() {
        both(image.words, &image.bytes, image.answer, &mut random, counts)?;
    }
    for call in formattings() {
        let asked = Asked::Message {
            id: call.id,
            attribute: call.attribute,
            arguments: call.arguments,
        };
        let made = Call::new(call.store, asked);
        let answer = made.answer(call.lengths, &mut random, counts)?;
        same(&call.words, answer.err().unwrap_or(0), call.answer)?;
    }
    for call in sheets() {
        let made = Call::new(call.store, Asked::Sheet(call.sheet));
        let answer = made.answer(call.lengths, &mut random, counts)?;
        same(call.words, answer.err().unwrap_or(0), call.answer)?;
    }
    for large in largest() {
        both(large.what, &large.bytes, large.answer, &mut random, counts)?;
    }
    every_change(&mut random, counts)
}

fn message(arguments: &[u8]) -> Call {
    let asked = Asked::Message {
        id: b"a".to_vec(),
        attribute: None,
        arguments: arguments.to_vec(),
    };
    Call::new(store(), asked)
}

/// An image in a formatting and, where its length is one that a sheet may have, in a
/// sheet between two messages.
fn both(
    what: &str,
    image: &[u8],
    answer: u8,
    random: &mut Random,
    counts: &mut Counts,
) -> Result<(), String> {
    let said = message(image).answer(LENT, random, counts)?;
    same(what, said.err().unwrap_or(0), answer)?;
    let stated = image[..4].iter().fold(0, |n, b| n << 8 | usize::from(*b));
    if stated != image.len() || image.len() > 65_536 {
        return Ok(());
    }
    let row = |arguments: &[u8]| Row {
        message: b"a".to_vec(),
        attribute: None,
        arguments: arguments.to_vec(),
    };
    let none = encode::arguments(&[]);
    let rows = [row(&none), row(image), row(&none)];
    let sheet = Call::new(store(), Asked::Sheet(encode::sheet(&rows)));
    let said = sheet.answer(LENT, random, counts)?;
    same(what, said.err().unwrap_or(0), answer)
}

/// Every other byte at every place, every truncation, and some more bytes, of an
/// image with all that one can have.
fn every_change(random: &mut Random, counts: &mut Counts) -> Result<(), String> {
    let whole = image("N=x a a-=25/1 aa=-0/0 n=x z=999999999999999/14");
    let mut changed = whole.clone();
    for at in 0..whole.len() {
        for value in (0..=255).filter(|value| *value != whole[at]) {
            changed[at] = value;
            counts.damaged += 1;
            message(&changed).compare(LENT, random, counts)?;
        }
        changed[at] = whole[at];
    }
    for length in (0..whole.len()).chain(whole.len() + 1..whole.len() + 20) {
        let mut other = whole.clone();
        other.resize(length, 0);
        message(&other).compare(LENT, random, counts)?;
        if let Some(stated) = other.get_mut(..4) {
            stated.copy_from_slice(&(length as u32).to_be_bytes());
        }
        counts.damaged += 2;
        message(&other).compare(LENT, random, counts)?;
    }
    Ok(())
}
