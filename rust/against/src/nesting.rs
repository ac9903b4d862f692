//! Isolation marks in the crate's texts, counted. Where no text element, no string
//! literal once it is read and no string argument has one, every finished text is
//! paired; where one has, many are not, and the count shows it.

mod tally;

pub use tally::{Nesting, Noticed};

use crate::asked::Model;
use crate::call::{ample, Call};
use crate::wanted::Wanted;
use crate::{hurt, same, Counts};
use harness::model::effects::Lengths;
use harness::model::marks::{marks, open_at_the_limit};
use harness::model::premises::KINDS;
use harness::nesting::{formattings, sheets};
use harness::random::Random;
use harness::{marked, marked_sheet, unmarked, unmarked_sheet};

/// Compares and counts on a formatting of a seed, or says what differs.
pub fn compare_formatting(seed: u64, counts: &mut Counts) -> Result<(), String> {
    counts.cases += 1;
    let mut random = Random::new(seed ^ 0x12_0F0D);
    Wanted::message(&unmarked(seed))?.unmarked(&mut random, counts)
}

/// The same on a sheet of a seed.
pub fn compare_sheet(seed: u64, counts: &mut Counts) -> Result<(), String> {
    counts.cases += 1;
    let mut random = Random::new(seed ^ 0x125_0F0D);
    Wanted::sheet(&unmarked_sheet(seed))?.unmarked(&mut random, counts)
}

/// A formatting and a sheet of a seed with marks in their text elements, then in
/// their string literals, then in their string arguments: the oracle's texts, and
/// how many of them are unpaired.
pub fn compare_marked(seed: u64, counts: &mut Counts) -> Result<(), String> {
    counts.cases += 1;
    let mut random = Random::new(seed ^ 0x12A_0F0D);
    for (at, kind) in KINDS.into_iter().enumerate() {
        let message = Wanted::message(&marked(seed, kind))?;
        let sheet = Wanted::sheet(&marked_sheet(seed, kind))?;
        for wanted in [message, sheet] {
            let text = wanted.text(&mut random, counts)?;
            let marks = text.map(|text| marks(&text)).transpose()?;
            counts.nesting.noticed[at].meet(marks);
        }
    }
    Ok(())
}

/// The texts that were worked out by hand.
pub fn by_hand(counts: &mut Counts) -> Result<(), String> {
    let mut random = Random::new(0x12);
    let messages = formattings().into_iter();
    let messages = messages.map(|point| (Wanted::message(&point.case), point.said));
    let sheets = sheets().into_iter();
    let sheets = sheets.map(|point| (Wanted::sheet(&point.sheet), point.said));
    for (wanted, said) in messages.chain(sheets) {
        let wanted = wanted?;
        let text = wanted.text(&mut random, counts)?.unwrap_or_default();
        same("a text by hand", &*text, said.text.as_bytes())?;
        same("paired", marks(&text)?.paired(), said.paired)?;
        if said.marked.is_none() {
            wanted.unmarked(&mut random, counts)?;
        }
    }
    Ok(())
}

impl Wanted {
    /// The crate's text, with ample buffers and with ones that just fit, which is
    /// the oracle's; none where the call is refused.
    fn text(&self, random: &mut Random, counts: &mut Counts) -> Result<Option<Vec<u8>>, String> {
        let text = finished(&self.call, random, counts)?;
        match (&text, &self.said) {
            (Some(ours), Ok((theirs, _))) => same("the oracle's text", ours, theirs)?,
            (None, Err(_)) => {}
            _ => return Err("one of both is refused".into()),
        }
        Ok(text)
    }

    /// The text is paired, and the original's; and so are those of calls with
    /// damaged bytes in which still nothing has a mark.
    fn unmarked(&self, random: &mut Random, counts: &mut Counts) -> Result<(), String> {
        if let Some(text) = self.text(random, counts)? {
            let open = open(&self.call.model);
            counts.nesting.count(&text, &open)?;
            if let (Ok((text, _)), true) = (&self.said, self.original) {
                counts.nesting.original(text)?;
            }
        }
        self.damaged(random, counts)?;
        self.damaged(random, counts)
    }

    /// The call with changed bytes of the store, of the arguments or of the sheet,
    /// and whether they are others then.
    fn changed(&self, random: &mut Random) -> (Call, bool) {
        let (mut store, mut asked) = (self.call.store.clone(), self.call.asked.clone());
        let changed = match random.below(5) {
            0 | 1 => hurt(random, &mut store),
            2 | 3 => hurt(random, asked.bytes()),
            _ => hurt(random, &mut store) | hurt(random, asked.bytes()),
        };
        (Call::new(store, asked), changed)
    }

    /// The first of some calls with changed bytes that finishes, or the last.
    fn damaged(&self, random: &mut Random, counts: &mut Counts) -> Result<(), String> {
        let (mut call, mut changed) = self.changed(random);
        for _ in 0..4 {
            if call.model.need().is_some() && changed {
                break;
            }
            (call, changed) = self.changed(random);
        }
        counts.damaged += u64::from(changed);
        let Some(text) = finished(&call, random, counts)? else {
            return Ok(());
        };
        let marked = call.asked.marked(&call.store);
        match marked.ok_or("a malformed input finishes")?.none() {
            true => counts.nesting.damaged(&text, &open(&call.model)),
            false => {
                counts.nesting.left_out += 1;
                Ok(())
            }
        }
    }
}

/// The text of a call that finishes: with ample buffers, and the same with ones
/// that just fit. One that is refused is compared with any buffers.
fn finished(
    call: &Call,
    random: &mut Random,
    counts: &mut Counts,
) -> Result<Option<Vec<u8>>, String> {
    let Some((_, need)) = call.model.need() else {
        let lengths = Lengths {
            text: 500,
            list: 500,
            workspace: random.below(500),
        };
        call.compare(lengths, random, counts)?;
        return Ok(None);
    };
    let first = call.finished(ample(need, random), random, counts)?;
    let exact = call.finished(need, random, counts)?;
    same("buffers that just fit", &exact, &first)?;
    Ok(Some(first.text))
}

/// Of each message how many isolates are open where it is cut short, if it is.
fn open(model: &Model) -> Vec<Option<usize>> {
    let messages = model.messages().into_iter();
    let open = messages.map(|message| open_at_the_limit(&message.effects));
    open.collect()
}
