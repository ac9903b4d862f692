//! Numbers that are not left to chance: the formattings and sheets that were worked
//! out by hand, with ample and with lent lengths, and with changed bytes.

use super::Fractions;
use crate::asked::Asked;
use crate::call::Call;
use crate::wanted::Wanted;
use crate::{same, Counts};
use harness::fractions::{changed, formattings, lent, lent_sheets, sheets};
use harness::model::effects::Lengths;
use harness::random::Random;

/// All formattings, or what differs.
pub fn by_hand(counts: &mut Counts) -> Result<(), String> {
    let mut random = Random::new(0x3D);
    for point in formattings() {
        let wanted = Wanted::message(&point.case)?;
        wanted.is_by_hand(Ok((&point.text, point.figure)))?;
        wanted.all::<Fractions>(&mut random, counts)?;
    }
    for point in lent() {
        let call = Wanted::message(&point.case)?.call;
        answered(&call, point.lengths, point.answer, &mut random, counts)?;
    }
    for point in changed() {
        let asked = Asked::Message {
            id: b"a".to_vec(),
            attribute: None,
            arguments: point.arguments,
        };
        let call = Call::new(point.store, asked);
        let lengths = Lengths {
            text: 40,
            list: 40,
            workspace: 0,
        };
        counts.damaged += 1;
        let answer = call.answer(lengths, &mut random, counts)?;
        let text = answer.map(|done| done.text);
        let wanted = point.said.map(|text| text.as_bytes().to_vec());
        same("changed bytes by hand", text, wanted)?;
    }
    Ok(())
}

/// All sheets, or what differs.
pub fn sheets_by_hand(counts: &mut Counts) -> Result<(), String> {
    let mut random = Random::new(0x5E3D);
    for point in sheets() {
        let wanted = Wanted::sheet(&point.sheet)?;
        let answer = point.said.as_ref().map_err(|refusal| *refusal);
        wanted.is_by_hand(answer.map(|(text, figure)| (&text[..], *figure)))?;
        wanted.all::<Fractions>(&mut random, counts)?;
    }
    for point in lent_sheets() {
        let call = Wanted::sheet(&point.sheet)?.call;
        answered(&call, point.lengths, point.answer, &mut random, counts)?;
    }
    Ok(())
}

/// The answer of a call with lent lengths.
fn answered(
    call: &Call,
    lengths: Lengths,
    answer: u8,
    random: &mut Random,
    counts: &mut Counts,
) -> Result<(), String> {
    let said = call.answer(lengths, random, counts)?;
    same("an answer by hand", said.err().unwrap_or(0), answer)
}
