//! Escapes that are not left to chance: the literals that were worked out by hand, in
//! formattings and sheets, in resources that are added, and in changed stores.

use super::all;
use crate::asked::Asked;
use crate::call::Call;
use crate::wanted::Wanted;
use crate::{additions, same, Counts, Lent};
use harness::encode;
use harness::escapes::{changed, formattings, image, refused, sheets, store, told, PLACES};
use harness::model::effects::Lengths;
use harness::model::operations as model;
use harness::random::Random;

/// All formattings, additions and changed stores, or what differs.
pub fn by_hand(counts: &mut Counts) -> Result<(), String> {
    let mut random = Random::new(0x5C);
    for point in formattings() {
        let wanted = Wanted::message(&point.case)?;
        wanted.is_by_hand(Ok((&point.text, point.figure)))?;
        all(&wanted, &mut random, counts)?;
    }
    for (at, told) in told().iter().enumerate() {
        let image = image(told.literal.as_bytes(), at % PLACES);
        added(&image, Ok(0), &mut random, counts)?;
    }
    for (at, literal) in refused().iter().enumerate() {
        added(&image(literal, at % PLACES), Err(5), &mut random, counts)?;
        answered(store(literal), Err(4), &mut random, counts)?;
    }
    for point in changed() {
        answered(point.store, point.said, &mut random, counts)?;
    }
    Ok(())
}

/// All sheets, or what differs.
pub fn sheets_by_hand(counts: &mut Counts) -> Result<(), String> {
    let mut random = Random::new(0x5E5C);
    for point in sheets() {
        let wanted = Wanted::sheet(&point.sheet)?;
        wanted.is_by_hand(Ok((point.text, point.figure)))?;
        all(&wanted, &mut random, counts)?;
    }
    Ok(())
}

/// The addition of a resource image to a new bundle with room for it.
fn added(
    image: &[u8],
    by_hand: Result<usize, u8>,
    random: &mut Random,
    counts: &mut Counts,
) -> Result<(), String> {
    let mut slice = vec![0; 10 + image.len()];
    model::new(&mut slice, 0, 1).map_err(|refusal| format!("a new bundle: {refusal}"))?;
    let answer = model::add_resource(&mut slice.clone(), image, Some(&mut [0; 5]));
    same("an addition by hand", answer, by_hand)?;
    counts.damaged += u64::from(by_hand.is_err());
    let lent = [Lent::with(&slice, random), Lent::new(5, random)];
    additions::plain(lent, image, counts).map(drop)
}

/// Formatting `a` from a store: its text, or its refusal.
fn answered(
    store: Vec<u8>,
    by_hand: Result<&str, u8>,
    random: &mut Random,
    counts: &mut Counts,
) -> Result<(), String> {
    let asked = Asked::Message {
        id: b"a".to_vec(),
        attribute: None,
        arguments: encode::arguments(&[]),
    };
    let lengths = Lengths {
        text: 40,
        list: 40,
        workspace: 40,
    };
    counts.damaged += 1;
    let answer = Call::new(store, asked).answer(lengths, random, counts)?;
    let text = answer.map(|done| done.text);
    let by_hand = by_hand.map(|text| text.as_bytes().to_vec());
    same("changed bytes by hand", text, by_hand)
}
