//! The workspace by its places: by hand, against the counting of the model, and
//! by a search for the least length that is enough.
#![forbid(unsafe_code)]

use harness::model::effects::{run, Effect, Lengths};
use harness::model::operations::prepare;
use harness::model::sheet::{join, prepare as prepare_sheet, Prepared, Refused};
use harness::model::workspace::{self, enough, enough_for_sheet, Stopped, Workspace};
use harness::{encode, generator, large_stack, sheet_generator};

fn put(text: &str) -> Effect {
    Effect::Put(text.as_bytes().to_vec())
}

fn read(before: usize, text: &str) -> Effect {
    Effect::Read(before, text.as_bytes().to_vec())
}

/// What the effects give with this length.
fn with(length: usize, effects: &[Effect]) -> Result<usize, Stopped> {
    Workspace::new(length).message(effects)
}

fn wrong(effects: &[Effect]) -> &'static str {
    match with(100, effects) {
        Err(Stopped::Wrong(what)) => what,
        other => panic!("{other:?} of {effects:?}"),
    }
}

#[test]
fn texts_at_their_places() {
    use Effect::{Free, Keep, Open};
    // `one` is interrupted by `three`, which stays while it goes on.
    let effects = [
        put("outside"),
        Open,
        put("one"),
        Open,
        put("three"),
        Keep,
        read(0, "three"),
        put("two"),
        Open,
        put("é"),
        Keep,
        read(1, "é"),
        read(0, "three"),
        Free(2),
        put("."),
        Keep,
        read(0, "onetwo."),
        Free(1),
    ];
    // one and two, three, é: 6 + 5 + 2.
    for length in 0..40 {
        let wanted = if length < 13 {
            Err(Stopped::Full)
        } else {
            Ok(13)
        };
        assert_eq!(with(length, &effects), wanted, "length {length}");
    }
    // The text that moves may overlap the place it moves to.
    let moves = [Open, put("abc"), Keep, read(0, "abc"), Free(1)];
    assert_eq!(with(4, &moves), Ok(3));
    assert_eq!(with(3, &moves), Ok(3));
    assert_eq!(with(2, &moves), Err(Stopped::Full));
    // A write of no bytes never meets the end, and neither does the text buffer.
    assert_eq!(with(0, &[Open, put(""), Keep, Free(1), put("x")]), Ok(0));
    assert_eq!(with(0, &[Effect::Merge(20)]), Err(Stopped::Merge));
}

#[test]
fn effects_of_no_formatting() {
    use Effect::{Free, Keep, Open};
    assert_eq!(wrong(&[Keep]), "no text is being made");
    assert_eq!(wrong(&[Free(1)]), "nothing is there to be freed");
    let twice = [Open, put("x"), Keep, Free(2)];
    assert_eq!(wrong(&twice), "nothing is there to be freed");
    assert_eq!(wrong(&[Open, Free(1)]), "nothing is there to be freed");
    let left = "something is left at the end";
    assert_eq!(wrong(&[Open]), left);
    assert_eq!(wrong(&[Open, put("x"), Keep]), left);
    let gone = [Open, put("x"), Keep, Free(1), read(0, "x")];
    assert_eq!(wrong(&gone), "a text is read that is not there");
    let unfinished = [Open, put("x"), read(0, "x")];
    assert_eq!(wrong(&unfinished), "a text is read that is not there");
    let other = [Open, put("x"), Keep, read(0, "y")];
    assert_eq!(wrong(&other), "another text is read");
    let order = [Open, put("x"), Keep, Open, put("y"), Keep, read(0, "y")];
    assert_eq!(wrong(&order), "another text is read");
}

/// The least length for which this holds, which holds from there on.
fn least(enough: usize, finishes: impl Fn(usize) -> bool) -> usize {
    assert!(finishes(enough));
    // Small ones one by one, so that nothing is taken for granted.
    if let Some(length) = (0..enough.min(24)).find(|n| finishes(*n)) {
        return length;
    }
    let (mut short, mut fits) = (enough.min(24).saturating_sub(1), enough);
    while fits - short > 1 {
        let middle = (short + fits) / 2;
        match finishes(middle) {
            true => fits = middle,
            false => short = middle,
        }
    }
    fits
}

/// Ample text and list, and this workspace.
fn lent(workspace: usize) -> Lengths {
    Lengths {
        workspace,
        ..Lengths::AMPLE
    }
}

#[test]
fn both_models_on_formattings() {
    let (above, highest) = large_stack(|| {
        let (mut above, mut highest) = (0, 0);
        for seed in 1..=30_000 {
            let case = generator(seed);
            let store = encode::store(&case.bundle);
            let arguments = encode::arguments(&case.arguments);
            let attribute = case.attribute.as_deref().map(str::as_bytes);
            let Ok(resolution) = prepare(&store, case.message.as_bytes(), attribute, &arguments)
            else {
                continue;
            };
            let enough = enough(&resolution.effects);
            let figure = workspace::formatting(&resolution, enough);
            let counted = run(&resolution.effects, Lengths::AMPLE);
            let Ok(counted) = counted.map(|done| done.highest) else {
                assert_eq!(figure, Err(Stopped::Merge), "seed {seed}");
                continue;
            };
            assert_eq!(figure, Ok(counted), "seed {seed}");
            let at = |length| workspace::formatting(&resolution, length);
            let found = least(enough, |length| at(length).is_ok());
            assert_eq!(found, counted, "seed {seed}");
            let counting = |length| run(&resolution.effects, lent(length));
            let found = least(enough, |length| counting(length).is_ok());
            assert_eq!(found, counted, "seed {seed}");
            if counted > 0 {
                assert_eq!(at(counted - 1), Err(Stopped::Full), "seed {seed}");
                assert_eq!(counting(counted - 1), Err(16), "seed {seed}");
            }
            above += usize::from(counted > 0);
            highest = highest.max(counted);
        }
        (above, highest)
    });
    assert!(above > 8_000 && highest > 300, "{above}, {highest}");
}

/// A sheet's figure by its places, if it finishes with ample buffers.
fn finished(prepared: &Prepared) -> Option<usize> {
    let figure = workspace::sheet(prepared, enough_for_sheet(prepared))?;
    match (figure, join(prepared, Lengths::AMPLE)) {
        (Err(stopped), Err(refused)) => {
            assert_eq!((stopped, refused.number()), (Stopped::Merge, 17));
            None
        }
        (figure, answer) => {
            let counted = answer.map(|joined| joined.figures.highest);
            assert_eq!(figure.ok(), counted.ok());
            figure.ok()
        }
    }
}

#[test]
fn both_models_on_sheets() {
    let (above, neither) = large_stack(|| {
        let (mut above, mut neither) = (0, 0);
        for seed in 1..=8_000 {
            let sheet = sheet_generator(seed);
            let prepared = prepare_sheet(&encode::store(&sheet.bundle), &sheet.image());
            let Some(figure) = finished(&prepared) else {
                continue;
            };
            let at = |length| workspace::sheet(&prepared, length).expect("it has effects");
            let found = least(enough_for_sheet(&prepared), |length| at(length).is_ok());
            assert_eq!(found, figure, "seed {seed}");
            assert_eq!(
                join(&prepared, lent(figure)),
                join(&prepared, Lengths::AMPLE)
            );
            if figure > 0 {
                assert_eq!(at(figure - 1), Err(Stopped::Full), "seed {seed}");
                let less = join(&prepared, lent(figure - 1));
                assert_eq!(less, Err(Refused::Cleared(16)), "seed {seed}");
                above += 1;
            }
            let each = messages(&prepared);
            let last = each.last().copied().unwrap_or(0);
            neither += usize::from(figure != each.iter().sum() && figure != last);
        }
        (above, neither)
    });
    assert!(above > 1_500 && neither > 400, "{above}, {neither}");
}

/// The messages' own figures.
fn messages(prepared: &Prepared) -> Vec<usize> {
    let messages = prepared.as_ref().expect("it has messages").iter();
    let effects = messages.map(|m| &m.as_ref().expect("it is there").effects);
    effects
        .map(|e| with(enough(e), e).expect("it finishes"))
        .collect()
}
