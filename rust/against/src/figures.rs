//! The workspace figure, and what is promised by it: a workspace of just that
//! length gives the same answer, a shorter one is refused with 16, and plain
//! additions change neither.

use crate::additions::{function, plain};
use crate::asked::Asked;
use crate::call::{any, Call, Done};
use crate::{hurt, same, Counts, Lent};
use harness::figures::{formattings, sheets};
use harness::model::effects::Lengths;
use harness::plain::{addition, Addition};
use harness::random::Random;
use harness::{encode, generator, sheet_generator, Maker};
use weszlagyo::operations::Figures;

/// Compares everything on a formatting of a seed, or says what differs.
pub fn compare_formatting(seed: u64, counts: &mut Counts) -> Result<(), String> {
    counts.cases += 1;
    let made = (0..6).map(|at| {
        let case = generator(seed.wrapping_mul(8).wrapping_add(at) ^ 0xF1 << 48);
        (encode::store(&case.bundle), Asked::message(&case))
    });
    let mut random = Random::new(seed ^ 0xF1_0F0D);
    of_some_figure(made).all(seed, &mut random, counts)
}

/// The same on a sheet of a seed.
pub fn compare_sheet(seed: u64, counts: &mut Counts) -> Result<(), String> {
    counts.cases += 1;
    let made = (0..4).map(|at| {
        let sheet = sheet_generator(seed.wrapping_mul(8).wrapping_add(at) ^ 0xF1 << 48);
        let asked = Asked::Sheet(sheet.image());
        (encode::store(&sheet.bundle), asked)
    });
    let mut random = Random::new(seed ^ 0xF5_0F0D);
    of_some_figure(made).all(seed, &mut random, counts)
}

/// The first whose figure is above 0, or else the last.
fn of_some_figure(made: impl Iterator<Item = (Vec<u8>, Asked)>) -> Call {
    let mut last = None;
    for (store, asked) in made {
        let call = Call::new(store, asked);
        let need = call.model.need();
        let above = need.is_some_and(|(_, need)| need.workspace > 0);
        last = Some(call);
        if above {
            break;
        }
    }
    last.expect("one at least")
}

/// The figures that were worked out by hand.
pub fn by_hand(counts: &mut Counts) -> Result<(), String> {
    let mut random = Random::new(0xF1);
    let messages = formattings().into_iter().map(|point| {
        let store = encode::store(&point.case.bundle);
        (store, Asked::message(&point.case), point.figure)
    });
    let sheets = sheets().into_iter().map(|point| {
        let store = encode::store(&point.sheet.bundle);
        (store, Asked::Sheet(point.sheet.image()), point.figure)
    });
    for (at, (store, asked, figure)) in messages.chain(sheets).enumerate() {
        let call = Call::new(store, asked);
        let work = call.model.need().map(|(_, need)| need.workspace);
        same("a figure by hand", Some(figure), work)?;
        call.all(at as u64, &mut random, counts)?;
    }
    Ok(())
}

impl Call {
    fn all(mut self, seed: u64, random: &mut Random, counts: &mut Counts) -> Result<(), String> {
        // the slice of a store may be longer than the store, and has room then
        let room = *random.pick(&[0, 20, 60, 200, 1000]);
        let length = self.store.len() + random.below(room + 1);
        self.store.resize(length, random.draw() as u8);
        let Some((figures, need)) = self.model.need() else {
            // refused whatever is lent
            let lengths = Lengths {
                text: 500,
                list: 500,
                workspace: random.below(500),
            };
            self.compare(lengths, random, counts)?;
            return self.damaged(lengths, random, counts);
        };
        let first = self.lengths(need, figures, random, counts)?;
        let added = self.added(seed, random, counts)?;
        if first.figures.unfound == 0 {
            let again = added.lengths(need, figures, random, counts)?;
            same("after additions", again, first)?;
        } else if let Some((figures, need)) = added.model.need() {
            added.lengths(need, figures, random, counts)?;
        } else {
            added.compare(need, random, counts)?;
        }
        self.damaged(need, random, counts)?;
        added.damaged(need, random, counts)
    }

    /// Ample buffers; then a workspace of the figure, shorter ones and a longer
    /// one, with text and list as long as needed or longer.
    fn lengths(
        &self,
        need: Lengths,
        figures: Figures,
        random: &mut Random,
        counts: &mut Counts,
    ) -> Result<Done, String> {
        let ample = Lengths {
            text: 2 * need.text + 64,
            list: 2 * need.list + 64,
            workspace: 2 * need.workspace + 64,
        };
        let first = self.finished(ample, random, counts)?;
        same("figures", first.figures, figures)?;
        same("the figure", first.figures.work, need.workspace)?;
        same(
            "the figure by places",
            self.model.is_placed(need.workspace),
            true,
        )?;
        let exact = self.finished(longer(need, random), random, counts)?;
        same("a workspace of the figure", &exact, &first)?;
        let mut more = longer(need, random);
        more.workspace += 1 + random.below(300);
        let more = self.finished(more, random, counts)?;
        same("a longer workspace", &more, &first)?;
        if need.workspace > 0 {
            for workspace in [need.workspace - 1, random.below(need.workspace)] {
                let mut less = longer(need, random);
                less.workspace = workspace;
                let answer = self.answer(less, random, counts)?;
                same("a shorter workspace", answer.map(drop), Err(16))?;
            }
        }
        Ok(first)
    }

    /// The same call on the slice that some plain additions leave.
    fn added(&self, seed: u64, random: &mut Random, counts: &mut Counts) -> Result<Self, String> {
        let mut slice = self.store.clone();
        let mut maker = Maker::new(seed ^ 0xADD);
        for _ in 0..1 + random.below(6) {
            match addition(random, &mut maker, &slice) {
                Addition::Resource { image, tree, list } => {
                    let mut image = image;
                    if random.one_in(8) {
                        hurt(random, &mut image);
                    }
                    counts.damaged += u64::from(image != encode::resource(&tree));
                    let list = any(list, random);
                    let lent = [&slice, &list].map(|bytes| Lent::with(bytes, random));
                    slice = plain(lent, &image, counts)?;
                }
                Addition::Function { id, code } => {
                    let lent = Lent::with(&slice, random);
                    slice = function(lent, id.as_bytes(), code, counts)?;
                }
            }
        }
        Ok(Self::new(slice, self.asked.clone()))
    }

    /// Changed bytes of the store, of the arguments or of the sheet, with the
    /// lengths of the call that they are made from.
    fn damaged(
        &self,
        need: Lengths,
        random: &mut Random,
        counts: &mut Counts,
    ) -> Result<(), String> {
        let (mut store, mut asked) = (self.store.clone(), self.asked.clone());
        let changed = match random.below(3) {
            0 => hurt(random, &mut store),
            1 => hurt(random, asked.bytes()),
            _ => hurt(random, &mut store) | hurt(random, asked.bytes()),
        };
        counts.damaged += u64::from(changed);
        let mut lengths = longer(need, random);
        match random.below(3) {
            0 => {}
            1 => lengths.workspace = lengths.workspace.saturating_sub(1),
            _ => lengths.workspace = random.below(lengths.workspace + 2),
        }
        Self::new(store, asked).compare(lengths, random, counts)
    }
}

/// Text and list as long or longer, the workspace as long.
fn longer(need: Lengths, random: &mut Random) -> Lengths {
    let mut more = |length: usize| match random.one_in(2) {
        true => length,
        false => length + random.below(100),
    };
    Lengths {
        text: more(need.text),
        list: more(need.list),
        workspace: need.workspace,
    }
}
