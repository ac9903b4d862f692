//! Sheets in one call: through the crate, and on buffers of many lengths, with
//! inputs damaged or not.

pub mod fixed;

use crate::{convert, hurt, same, Counts, Lent, BEFORE};
use harness::case::{Given, Sheet as Case};
use harness::model::effects::Lengths;
use harness::model::sheet::{self as model, Prepared, Refused};
use harness::random::Random;
use harness::vectors::sheets::needs;
use harness::ExpectedSheet;
use weszlagyo::{operations, Buffers, FluentBundle, Sheet};

/// The crate's own sheets, whose buffers grow: the expected text, errors and
/// figures. A sheet that the crate does not build has arguments of no length.
pub fn by_the_crate(
    case: &Case,
    expected: &ExpectedSheet,
    counts: &mut Counts,
) -> Result<(), String> {
    let bundle = FluentBundle::from_store(expected.store.clone());
    let bundle = bundle.map_err(|r| format!("from_store: {r}"))?;
    let mut sheet = Sheet::new();
    for row in &case.rows {
        let attribute = row.attribute.as_deref();
        let added = match &row.arguments {
            Given::Values(given) => {
                sheet.push(&row.message, attribute, Some(&convert::arguments(given)))
            }
            Given::Bytes(bytes) => sheet.push_image(&row.message, attribute, bytes),
        };
        if let Err(refusal) = added {
            let wanted = Err(Refused::Unchanged(18));
            same("push", refusal.number(), 13)?;
            return same("a sheet", wanted, expected.answer.clone().map(drop));
        }
    }
    let mut buffers = Buffers::with_lengths(0, 0, 0);
    let answer = bundle.format_sheet_in(&mut buffers, &sheet);
    let wanted = expected.answer.as_ref().map_err(|r| r.number());
    counts.call(*wanted.as_ref().err().unwrap_or(&0));
    let ours = answer.map_err(|r| r.number()).map(|figures| {
        let list = convert::error_list(&buffers.errors(figures));
        let text = buffers.text(figures).as_bytes().to_vec();
        (text, list, figures)
    });
    let theirs = wanted.map(|w| (w.text.clone(), w.list.clone(), figures(w.figures)));
    same("format_sheet_in", ours, theirs)
}

pub(crate) fn figures(figures: model::Figures) -> operations::Figures {
    operations::Figures {
        text: figures.text,
        errors: figures.errors,
        begun: figures.begun,
        unfound: figures.unfound,
        work: figures.highest,
    }
}

/// Sheets with three lent lengths: just enough, ample, one byte short of what
/// is needed up to some message, and any.
pub fn by_lengths(
    expected: &ExpectedSheet,
    random: &mut Random,
    counts: &mut Counts,
) -> Result<(), String> {
    let needs = needs(&expected.prepared);
    let whole = *needs.last().expect("one at least");
    let input = Input {
        store: &expected.store,
        sheet: &expected.sheet,
        prepared: &expected.prepared,
    };
    for turn in 0..5 {
        let some = *random.pick(&needs);
        let mut lengths = whole;
        match turn {
            0 => {}
            1 => {
                lengths.text += random.below(200);
                lengths.list += random.below(200);
                lengths.workspace += random.below(200);
            }
            2 => match random.below(3) {
                0 => lengths.text = some.text.saturating_sub(1),
                1 => lengths.list = some.list - 1,
                _ => lengths.workspace = some.workspace.saturating_sub(1),
            },
            3 => {
                // several short at once: the first one met decides
                lengths.text = some.text + random.below(12);
                lengths.list = some.list + random.below(12);
                lengths.workspace = random.below(whole.workspace + 2);
            }
            _ => {
                lengths.text = random.below(whole.text + 4);
                lengths.list = random.below(whole.list + 4);
                lengths.workspace = random.below(whole.workspace + 4);
            }
        }
        input.compare(lengths, random, counts)?;
    }
    Ok(())
}

/// Sheets whose image, or store, or both were changed, cut or lengthened.
pub fn damaged(
    expected: &ExpectedSheet,
    random: &mut Random,
    counts: &mut Counts,
) -> Result<(), String> {
    for turn in 0..3 {
        let (mut store, mut sheet) = (expected.store.clone(), expected.sheet.clone());
        let mut changed = false;
        if turn == 0 {
            changed |= hurt(random, &mut store);
        }
        if turn > 0 || random.one_in(4) {
            changed |= hurt(random, &mut sheet);
        }
        if random.one_in(3) && sheet.len() >= 4 {
            // it says the length that it has now
            let length = sheet.len() as u32;
            sheet[..4].copy_from_slice(&length.to_be_bytes());
        }
        counts.damaged += u64::from(changed);
        // the slice of a store may be longer than the store
        store.resize(store.len() + random.below(20), BEFORE);
        let prepared = model::prepare(&store, &sheet);
        let lengths = Lengths {
            text: random.below(1000),
            list: random.below(400),
            workspace: random.below(100),
        };
        let input = Input {
            store: &store,
            sheet: &sheet,
            prepared: &prepared,
        };
        input.compare(lengths, random, counts)?;
    }
    Ok(())
}

struct Input<'a> {
    store: &'a [u8],
    sheet: &'a [u8],
    prepared: &'a Prepared,
}

impl Input<'_> {
    /// One call: its answer, and every byte of the three buffers.
    fn compare(
        &self,
        lengths: Lengths,
        random: &mut Random,
        counts: &mut Counts,
    ) -> Result<(), String> {
        let mut text = Lent::new(lengths.text, random);
        let mut list = Lent::new(lengths.list, random);
        let mut work = Lent::new(lengths.workspace, random);
        let answer = operations::format_sheet(
            self.store,
            self.sheet,
            text.slice(),
            list.slice(),
            work.slice(),
        );
        let [mut wanted_text, mut wanted_list, mut wanted_work] =
            [lengths.text, lengths.list, lengths.workspace].map(|n| vec![BEFORE; n]);
        let wanted = model::format_sheet(
            self.prepared,
            &mut wanted_text,
            &mut wanted_list,
            &mut wanted_work,
        );
        counts.call(*wanted.as_ref().err().unwrap_or(&0));
        let answer = answer.map_err(|r| r.number());
        same("answer", answer, wanted.map(figures)).map_err(|e| self.named(lengths, &e))?;
        for (what, ours, theirs) in [
            ("text", text.held()?, wanted_text),
            ("list", list.held()?, wanted_list),
            ("workspace", work.held()?, wanted_work),
        ] {
            if ours != theirs {
                let at = ours.iter().zip(&theirs).take_while(|(a, b)| a == b).count();
                let said = format!("{what}: {} is not {} at {at}", ours[at], theirs[at]);
                return Err(self.named(lengths, &said));
            }
        }
        Ok(())
    }

    /// A difference, with the call that shows it, if that is short.
    fn named(&self, lengths: Lengths, difference: &str) -> String {
        let (store, sheet) = (self.store, self.sheet);
        match store.len() + sheet.len() < 2000 {
            true => format!("{lengths:?}: {difference}\n  {store:02x?}\n  {sheet:02x?}"),
            false => format!("{lengths:?}: {difference}"),
        }
    }
}
