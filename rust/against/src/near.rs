//! A call with buffers that are ample, just fit or are one byte short, and with damaged
//! bytes; for the parts that count numbers or escapes.

use crate::asked::Model;
use crate::call::{ample, Call};
use crate::wanted::Wanted;
use crate::{hurt, same, Counts};
use harness::model::effects::Lengths;
use harness::model::resolve::Resolution;
use harness::random::Random;

/// What a part counts of its calls.
pub trait Tally {
    /// What it counts of one text.
    type Seen: Default;

    /// A message of that text, too.
    fn see(seen: &mut Self::Seen, message: &Resolution);

    /// Its place among all that is counted.
    fn of(counts: &mut Counts) -> &mut Self;

    /// A formatting or a sheet, finished or not.
    fn case(&mut self);

    /// A text that finished, with what was seen of it, and whether it is the original's
    /// own.
    fn finished(&mut self, seen: Self::Seen, original: bool);

    /// One from damaged bytes.
    fn damaged(&mut self, seen: Self::Seen);
}

impl Wanted {
    pub fn all<T: Tally>(&self, random: &mut Random, counts: &mut Counts) -> Result<(), String> {
        self.undamaged::<T>(random, counts)?;
        damaged::<T>(&self.call, random, counts)?;
        damaged::<T>(&self.call, random, counts)
    }

    /// All but the calls with damaged bytes.
    pub fn undamaged<T: Tally>(
        &self,
        random: &mut Random,
        counts: &mut Counts,
    ) -> Result<(), String> {
        T::of(counts).case();
        match self.call.model.need() {
            Some((_, need)) => self.by_lengths::<T>(need, random, counts),
            None => {
                same("it finishes", self.said.is_err(), true)?;
                self.call.compare(some(random), random, counts)
            }
        }
    }

    /// With ample buffers and with ones that just fit it finishes as the oracle; with
    /// one byte less of one of them it is refused.
    fn by_lengths<T: Tally>(
        &self,
        need: Lengths,
        random: &mut Random,
        counts: &mut Counts,
    ) -> Result<(), String> {
        for lengths in [ample(need, random), need] {
            let done = self.call.finished(lengths, random, counts)?;
            let ours = (done.text, done.list);
            same("text and list", Ok(&ours), self.said.as_ref())?;
        }
        let seen = seen::<T>(&self.call.model);
        T::of(counts).finished(seen, self.original);
        for (lengths, refusal) in shorter(need) {
            let answer = self.call.answer(lengths, random, counts)?;
            same("one byte less", answer.map(drop), Err(refusal))?;
        }
        Ok(())
    }

    /// The text and the figure that were worked out by hand, or the refusal.
    pub fn is_by_hand(&self, by_hand: Result<(&str, usize), u8>) -> Result<(), String> {
        let text = self.said.as_ref().map(|(text, _)| &text[..]);
        let by_hand_text = by_hand.map(|(text, _)| text.as_bytes());
        same("a text by hand", text.map_err(|r| *r), by_hand_text)?;
        let figure = self.call.model.need().map(|(_, need)| need.workspace);
        same("a figure by hand", figure, by_hand.ok().map(|(_, f)| f))
    }
}

/// The call with changed bytes of the store, of the arguments or of the sheet.
pub(crate) fn damaged<T: Tally>(
    call: &Call,
    random: &mut Random,
    counts: &mut Counts,
) -> Result<(), String> {
    let (mut store, mut asked) = (call.store.clone(), call.asked.clone());
    let changed = match random.below(5) {
        0..=2 => hurt(random, &mut store),
        3 => hurt(random, asked.bytes()),
        _ => hurt(random, &mut store) | hurt(random, asked.bytes()),
    };
    counts.damaged += u64::from(changed);
    let call = Call::new(store, asked);
    let lengths = match call.model.need() {
        Some((_, need)) => {
            T::of(counts).damaged(seen::<T>(&call.model));
            match random.below(4) {
                0 => shorter(need).last().map_or(need, |(lengths, _)| *lengths),
                _ => need,
            }
        }
        None => some(random),
    };
    call.compare(lengths, random, counts)
}

/// Lengths that are enough for most.
pub(crate) fn some(random: &mut Random) -> Lengths {
    Lengths {
        text: 300 + random.below(300),
        list: random.below(300),
        workspace: random.below(100),
    }
}

/// One byte less of text, of list and of workspace, where there is one, and the
/// refusal that is met then.
fn shorter(need: Lengths) -> Vec<(Lengths, u8)> {
    let mut all = Vec::new();
    let list = need.list - 1;
    all.push((Lengths { list, ..need }, 7));
    if let Some(workspace) = need.workspace.checked_sub(1) {
        all.push((Lengths { workspace, ..need }, 16));
    }
    if let Some(text) = need.text.checked_sub(1) {
        all.push((Lengths { text, ..need }, 15));
    }
    all
}

/// What is counted of all messages of a call.
pub(crate) fn seen<T: Tally>(model: &Model) -> T::Seen {
    let mut seen = T::Seen::default();
    for message in model.messages() {
        T::see(&mut seen, message);
    }
    seen
}
