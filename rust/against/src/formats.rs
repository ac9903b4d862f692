//! Formattings: through the crate, and on buffers of many lengths, with inputs
//! damaged or not.

use crate::{convert, hurt, same, Counts, Lent, BEFORE};
use harness::case::Case;
use harness::model::effects::{Finished, Lengths};
use harness::model::operations as model;
use harness::random::Random;
use harness::Expected;
use weszlagyo::{operations, Buffers, FluentBundle};

/// The crate's own formattings, whose buffers grow: the expected text, errors
/// and counts.
pub fn by_the_crate(
    case: &Case,
    expected: &Expected,
    bundle: &FluentBundle,
    counts: &mut Counts,
) -> Result<(), String> {
    let args = convert::arguments(&case.arguments);
    let attribute = case.attribute.as_deref();
    let answer = bundle.format(&case.message, attribute, Some(&args));
    counts.call(*expected.answer.as_ref().err().unwrap_or(&0));
    let ours = answer.as_ref().map_err(|r| r.number()).map(|formatted| {
        let figures = formatted.figures;
        let list = convert::error_list(&formatted.errors);
        (formatted.text.as_bytes().to_vec(), list, figures)
    });
    let wanted = expected.answer.as_ref().map_err(|r| *r);
    let theirs = wanted.map(|f| (f.text.clone(), f.list.clone(), figures(f)));
    same("format", ours, theirs)?;
    // again, with buffers of no length, which have to grow from nothing
    let mut buffers = Buffers::with_lengths(0, 0, 0);
    let again = bundle.format_in(&mut buffers, &case.message, attribute, Some(&args));
    if let (Ok(formatted), Ok(figures)) = (&answer, again) {
        same("figures", figures, formatted.figures)?;
        same("text", buffers.text(figures).as_ref(), &formatted.text)?;
        same("errors", &buffers.errors(figures), &formatted.errors)?;
    } else {
        same("an answer", again.err(), answer.as_ref().err().copied())?;
    }
    // and as fluent-bundle's users write it
    let message = bundle.get_message(&case.message);
    let pattern = message.and_then(|message| match attribute {
        None => message.value(),
        Some(name) => message.get_attribute(name).map(|a| a.value()),
    });
    if let (Some(pattern), Ok(formatted)) = (pattern, &answer) {
        let mut errors = Vec::new();
        let text = bundle.format_pattern(pattern, Some(&args), &mut errors);
        same("format_pattern", text.as_ref(), &formatted.text)?;
        same("its errors", &errors, &formatted.errors)?;
    } else {
        let found = wanted.is_ok() || wanted == Err(17);
        same("a pattern", pattern.is_some(), found)?;
    }
    Ok(())
}

pub(crate) fn figures(finished: &Finished) -> operations::Figures {
    operations::Figures {
        text: finished.text.len(),
        errors: finished.errors,
        begun: finished.begun.into(),
        unfound: finished.unfound.into(),
        work: finished.highest,
    }
}

/// Formattings with three lent lengths: just enough, one byte less, and any.
pub fn by_lengths(
    case: &Case,
    expected: &Expected,
    random: &mut Random,
    counts: &mut Counts,
) -> Result<(), String> {
    let need = match &expected.answer {
        Ok(f) => Lengths {
            text: f.text.len(),
            list: f.list.len(),
            workspace: f.highest,
        },
        Err(_) => Lengths {
            text: 40,
            list: 40,
            workspace: 40,
        },
    };
    for turn in 0..4 {
        let mut lengths = need;
        match turn {
            0 => {}
            1 => match random.below(3) {
                0 => lengths.text = need.text.saturating_sub(1),
                1 => lengths.list = need.list - 1,
                _ => lengths.workspace = need.workspace.saturating_sub(1),
            },
            _ => {
                lengths.text = random.below(need.text + 4);
                lengths.list = random.below(need.list + 4);
                lengths.workspace = random.below(need.workspace + 4);
                if random.one_in(2) {
                    lengths.list = need.list + random.below(40);
                }
            }
        }
        let wanted = expected.with(lengths);
        let input = Input {
            store: &expected.store,
            id: case.message.as_bytes(),
            attribute: case.attribute.as_deref().map(str::as_bytes),
            arguments: &expected.arguments,
        };
        input.compare(lengths, wanted, expected.prepared.is_ok(), random, counts)?;
    }
    Ok(())
}

/// Formattings from damaged stores and arguments, and of ids that are none.
pub fn damaged(
    case: &Case,
    expected: &Expected,
    random: &mut Random,
    counts: &mut Counts,
) -> Result<(), String> {
    let mut store = expected.store.clone();
    let mut arguments = expected.arguments.clone();
    let mut id = case.message.clone().into_bytes();
    let mut attribute = case.attribute.clone().map(String::into_bytes);
    let changed = match random.below(8) {
        0..=3 => hurt(random, &mut store),
        4 | 5 => hurt(random, &mut arguments),
        6 => hurt(random, &mut id),
        _ => {
            let mut name = attribute.unwrap_or_default();
            let changed = hurt(random, &mut name);
            attribute = Some(name);
            changed
        }
    };
    counts.damaged += u64::from(changed);
    // the slice of a store may be longer than the store
    store.resize(store.len() + random.below(20), BEFORE);
    let prepared = model::prepare(&store, &id, attribute.as_deref(), &arguments);
    let lengths = Lengths {
        text: random.below(400),
        list: random.below(200),
        workspace: random.below(100),
    };
    let input = Input {
        store: &store,
        id: &id,
        attribute: attribute.as_deref(),
        arguments: &arguments,
    };
    let wanted = model::format(&prepared, lengths);
    input.compare(lengths, wanted, prepared.is_ok(), random, counts)
}

struct Input<'a> {
    store: &'a [u8],
    id: &'a [u8],
    attribute: Option<&'a [u8]>,
    arguments: &'a [u8],
}

impl Input<'_> {
    /// One formatting: its answer, and every byte of the three buffers.
    fn compare(
        &self,
        lengths: Lengths,
        wanted: Result<Finished, u8>,
        runs: bool,
        random: &mut Random,
        counts: &mut Counts,
    ) -> Result<(), String> {
        let mut text = Lent::new(lengths.text, random);
        let mut list = Lent::new(lengths.list, random);
        let mut work = Lent::new(lengths.workspace, random);
        let answer = operations::format(
            self.store,
            self.id,
            self.attribute,
            self.arguments,
            text.slice(),
            list.slice(),
            work.slice(),
        );
        counts.call(*wanted.as_ref().err().unwrap_or(&0));
        let answer = answer.map_err(|r| r.number());
        let number = wanted.as_ref().map(figures).map_err(|r| *r);
        same("answer", answer, number).map_err(|e| format!("{lengths:?}: {e}"))?;
        let (front_text, front_list, rest) = match &wanted {
            // later bytes as before
            Ok(f) => (f.text.as_slice(), f.list.as_slice(), BEFORE),
            // cleared
            Err(_) if runs && lengths.list >= 5 => (&[][..], &[][..], 0),
            // before the run: nothing changes
            Err(_) => (&[][..], &[][..], BEFORE),
        };
        let filled = |front: &[u8], length: usize, rest: u8| {
            let mut bytes = front.to_vec();
            bytes.resize(length, rest);
            bytes
        };
        let rest_of_work = if wanted.is_ok() { 0 } else { rest };
        same(
            "text",
            text.held()?,
            &filled(front_text, lengths.text, rest),
        )?;
        same(
            "list",
            list.held()?,
            &filled(front_list, lengths.list, rest),
        )?;
        let work_wanted = filled(&[], lengths.workspace, rest_of_work);
        same("workspace", work.held()?, &work_wanted)
    }
}
