//! One formatting or sheet, made over and over with other buffers and held to the
//! model each time; and what its refusals leave.

use crate::asked::{Asked, Model};
use crate::{same, Counts, Lent};
use harness::model::effects::Lengths;
use harness::random::Random;
use weszlagyo::operations::Figures;

/// A call that is made over and over, with other buffers.
pub(crate) struct Call {
    pub store: Vec<u8>,
    pub asked: Asked,
    pub model: Model,
}

/// What a call of the crate that finished leaves.
#[derive(PartialEq, Debug)]
pub(crate) struct Done {
    pub figures: Figures,
    pub text: Vec<u8>,
    pub list: Vec<u8>,
}

impl Call {
    pub fn new(store: Vec<u8>, asked: Asked) -> Self {
        let model = asked.prepare(&store);
        Self {
            store,
            asked,
            model,
        }
    }

    /// A call that has to finish.
    pub fn finished(
        &self,
        lengths: Lengths,
        random: &mut Random,
        counts: &mut Counts,
    ) -> Result<Done, String> {
        let answer = self.answer(lengths, random, counts)?;
        answer.map_err(|refusal| self.named(lengths, &format!("refused with {refusal}")))
    }

    /// A call that may finish or not.
    pub fn compare(
        &self,
        lengths: Lengths,
        random: &mut Random,
        counts: &mut Counts,
    ) -> Result<(), String> {
        self.answer(lengths, random, counts).map(drop)
    }

    /// One call, with any bytes in the buffers before: the model's answer, and
    /// every byte.
    pub fn answer(
        &self,
        lengths: Lengths,
        random: &mut Random,
        counts: &mut Counts,
    ) -> Result<Result<Done, u8>, String> {
        let [mut text, mut list, mut work] =
            [lengths.text, lengths.list, lengths.workspace].map(|length| any(length, random));
        let mut ours = [&text, &list, &work].map(|bytes| Lent::with(bytes, random));
        let before = [&text[..], &list, &work].concat();
        let [ours_text, ours_list, ours_work] = &mut ours;
        let buffers = [ours_text.slice(), ours_list.slice(), ours_work.slice()];
        let answer = self.asked.call(&self.store, buffers);
        let wanted = self.model.call([&mut text, &mut list, &mut work]);
        counts.call(wanted.err().unwrap_or(0));
        same("answer", answer, wanted).map_err(|e| self.named(lengths, &e))?;
        let wanted_bytes = [("text", &text), ("list", &list), ("workspace", &work)];
        for (ours, (what, wanted)) in ours.iter().zip(wanted_bytes) {
            same(what, ours.held()?, wanted).map_err(|e| self.named(lengths, &e))?;
        }
        if let Err(refusal) = wanted {
            let after = [&text[..], &list, &work].concat();
            let left = self.left(refusal, lengths.list, &before, &after);
            left.map_err(|e| self.named(lengths, &e))?;
        }
        let [ours_text, ours_list, _] = &mut ours;
        let (text, list) = (ours_text.slice(), ours_list.slice());
        Ok(wanted.map(|figures| Done {
            figures,
            text: text[..figures.text].to_vec(),
            list: list[..length_of(list)].to_vec(),
        }))
    }

    /// What a refusal has to leave: every byte as before where it comes before any run,
    /// else zeros. What is wrong with a sheet's message comes in that message's turn.
    fn left(&self, refusal: u8, list: usize, before: &[u8], after: &[u8]) -> Result<(), String> {
        let unchanged = match (&self.asked, refusal) {
            (_, 7) => list < 5,
            (Asked::Message { .. }, 4 | 8 | 11 | 12 | 13 | 19) => true,
            (Asked::Sheet(_), 4 | 18) => true,
            _ => false,
        };
        let what = format!("left by {refusal}");
        match unchanged {
            true => same(&what, after == before, true),
            false => same(&what, after.iter().all(|byte| *byte == 0), true),
        }
    }

    /// A difference, with the call that shows it, if that is short.
    fn named(&self, lengths: Lengths, difference: &str) -> String {
        let (store, asked) = (&self.store, &self.asked);
        match store.len() + asked.length() < 3000 {
            true => format!("{lengths:?}: {difference}\n  {store:02x?}\n  {asked:02x?}"),
            false => format!("{lengths:?}: {difference}"),
        }
    }
}

/// More of each than is needed.
pub(crate) fn ample(need: Lengths, random: &mut Random) -> Lengths {
    Lengths {
        text: need.text + 1 + random.below(200),
        list: need.list + 1 + random.below(200),
        workspace: need.workspace + 1 + random.below(200),
    }
}

/// Bytes of any contents.
pub(crate) fn any(length: usize, random: &mut Random) -> Vec<u8> {
    let all = std::iter::repeat_with(|| random.draw().to_le_bytes()).flatten();
    all.take(length).collect()
}

/// The length that a list states.
fn length_of(list: &[u8]) -> usize {
    list[..4].iter().fold(0, |n, b| n << 8 | usize::from(*b))
}
