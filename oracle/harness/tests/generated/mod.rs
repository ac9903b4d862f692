//! What came of generated formattings and sheets, on all of which both sides agree; and
//! what the model sees of one message.

use harness::case::{Bundle, Case, Item, Sheet};
use harness::model::operations;
use harness::model::resolve::Resolution;
use harness::{encode, expected, expected_sheet, ftl, large_stack};
use std::ops::Range;

/// Adds what it sees of a message, and says whether the message has what it is for.
type See<S> = fn(&mut S, &Resolution) -> bool;

#[derive(Debug, Default)]
pub struct Formattings<S> {
    /// What was seen of those that finished.
    pub seen: S,
    pub finished: usize,
    /// Those of them that have what they are for, that are the Rust's own, that were
    /// cut short, and that use the workspace.
    pub with: usize,
    pub originals: usize,
    pub cut: usize,
    pub with_workspace: usize,
    /// All, by their locales and by isolation; those that were refused by their answers.
    pub locales: [usize; 4],
    pub isolating: usize,
    pub refused: [usize; 20],
}

pub fn formattings<S>(seeds: Range<u64>, case: fn(u64) -> Case, see: See<S>) -> Formattings<S>
where
    S: Default + Send + 'static,
{
    large_stack(move || {
        let mut all = Formattings::default();
        for seed in seeds {
            let case = case(seed);
            all.locales[usize::from(case.bundle.locale)] += 1;
            all.isolating += usize::from(case.bundle.isolating);
            let e = expected(&case).unwrap_or_else(|d| panic!("seed {seed}: {d}"));
            match &e.answer {
                Err(answer) => all.refused[usize::from(*answer)] += 1,
                Ok(done) => {
                    let message = e.prepared.as_ref().expect("it has effects");
                    all.finished += 1;
                    all.with += usize::from(see(&mut all.seen, message));
                    all.originals += usize::from(e.from_rust);
                    all.cut += usize::from(done.begun == 101);
                    all.with_workspace += usize::from(done.highest > 0);
                }
            }
        }
        all
    })
}

#[derive(Debug, Default)]
pub struct Sheets<S> {
    /// What was seen of those that finished.
    pub seen: S,
    pub finished: usize,
    /// Those of them of which a message has what it is for.
    pub with: usize,
    /// The messages of all.
    pub rows: usize,
}

pub fn sheets<S>(seeds: Range<u64>, sheet: fn(u64) -> Sheet, see: See<S>) -> Sheets<S>
where
    S: Default + Send + 'static,
{
    large_stack(move || {
        let mut all = Sheets::default();
        for seed in seeds {
            let sheet = sheet(seed);
            let e = expected_sheet(&sheet).unwrap_or_else(|d| panic!("seed {seed}: {d}"));
            all.rows += sheet.rows.len();
            if e.answer.is_err() {
                continue;
            }
            let mut with = false;
            for message in e.prepared.iter().flatten().flatten() {
                with |= see(&mut all.seen, message);
            }
            all.finished += 1;
            all.with += usize::from(with);
        }
        all
    })
}

/// The same seed gives the same, another one something else.
pub fn by_their_seeds(case: fn(u64) -> Case, sheet: fn(u64) -> Sheet) {
    let shown = |seed| format!("{:?} {:?}", case(seed), sheet(seed));
    for seed in 0..50 {
        assert_eq!(shown(seed), shown(seed));
        assert_ne!(shown(seed), shown(seed + 1));
    }
}

/// The message `a` of a source, in English, with NUMBER and without arguments.
pub fn message(source: &str) -> Resolution {
    let store = encode::store(&Bundle {
        locale: 0,
        isolating: true,
        items: vec![
            Item::Function("NUMBER".into()),
            Item::Plain(ftl::resource(source)),
        ],
    });
    let arguments = encode::arguments(&[]);
    let prepared = operations::prepare(&store, b"a", None, &arguments);
    prepared.unwrap_or_else(|refusal| panic!("{source}: {refusal}"))
}
