//! figures.vec and figure_additions.vec: formattings and sheets with a workspace
//! of just the figure, one byte less, longer, or none; then again from the slice
//! that plain additions leave, and those additions.

use super::additions::{function_case, resource_case, rust_list, BEFORE};
use super::formats::{format_of, LENT};
use super::sheets::{self, LONGEST};
use super::{File, CASES, FIELDS};
use crate::case::{Bundle, Case, Item, Sheet};
use crate::figures;
use crate::model::effects::Lengths;
use crate::model::reader;
use crate::model::workspace::{self, is_exact};
use crate::plain::{addition, Addition};
use crate::random::Random;
use crate::{
    encode, expected, expected_sheet, generator, sheet_generator, Expected, ExpectedSheet, Maker,
};

/// What is lent as workspace.
#[derive(Clone, Copy, Debug, PartialEq)]
enum Kind {
    Exact,
    Less,
    Longer,
    None,
}

/// A bundle, and its slice with some room.
struct Held {
    bundle: Bundle,
    slice: Vec<u8>,
}

struct Writer {
    figures: File,
    additions: File,
    r: Random,
    maker: Maker,
    turn: usize,
}

/// figures.vec and figure_additions.vec.
pub fn make(seed: u64, cases: usize) -> (File, File) {
    let mut w = Writer {
        figures: File::default(),
        additions: File::default(),
        r: Random::new(seed ^ 6),
        maker: Maker::new(seed ^ 0xF1C),
        turn: 0,
    };
    w.by_hand();
    w.generated(seed, cases);
    let longest = w.figures.longest().max(w.additions.longest());
    assert!(longest <= LONGEST, "a case of {longest} bytes");
    (w.figures, w.additions)
}

impl Writer {
    /// The figures that were worked out by hand.
    fn by_hand(&mut self) {
        let kinds = [
            [Kind::Exact, Kind::Less, Kind::Longer],
            [Kind::Exact, Kind::Less, Kind::None],
        ];
        for point in figures::formattings() {
            let e = expected(&point.case).expect("they agree");
            self.turn += 1;
            self.formatting(&point.case, &e, &kinds[self.turn % 2]);
        }
        for point in figures::sheets() {
            let e = expected_sheet(&point.sheet).expect("they agree");
            self.turn += 1;
            self.sheet(&point.sheet, &e, &kinds[self.turn % 2]);
        }
    }

    fn generated(&mut self, seed: u64, cases: usize) {
        let kinds = [[Kind::Exact, Kind::Less], [Kind::Longer, Kind::None]];
        let mut at = seed.wrapping_mul(13_000_027);
        let end = self.figures.count() + 450 * cases / CASES;
        while self.figures.count() < end {
            at += 1;
            let case = generator(at);
            let e = expected(&case).unwrap_or_else(|d| panic!("case {at}: {d}"));
            let done = e
                .answer
                .as_ref()
                .map(|done| (done.highest, u64::from(done.unfound)));
            if done.is_ok_and(|done| self.worth(e.store.len(), done)) {
                self.turn += 1;
                self.formatting(&case, &e, &kinds[self.turn % 2]);
            }
        }
        let end = self.figures.count() + 240 * cases / CASES;
        while self.figures.count() < end {
            at += 1;
            let sheet = sheet_generator(at);
            let e = expected_sheet(&sheet).unwrap_or_else(|d| panic!("sheet {at}: {d}"));
            let length = e.store.len() + e.sheet.len();
            let done = e
                .answer
                .as_ref()
                .map(|done| (done.figures.highest, done.figures.unfound));
            let several = sheet.rows.len() > 1;
            if done.is_ok_and(|done| several && self.worth(length / 2, done)) {
                self.turn += 1;
                self.sheet(&sheet, &e, &kinds[self.turn % 2]);
            }
        }
    }

    /// Keeps the files small, with few figures of 0 and not too many that
    /// additions may change.
    fn worth(&mut self, length: usize, (figure, unfound): (usize, u64)) -> bool {
        let small = length < 190 || length < 450 && self.r.one_in(20);
        small && (figure > 0 || self.r.one_in(25)) && (unfound == 0 || self.r.one_in(4))
    }

    /// Lengths of this kind; a list and a text that are exact or longer.
    fn lent(&mut self, kind: Kind, need: Lengths) -> Option<Lengths> {
        let longer = |r: &mut Random, n: usize| match r.one_in(2) {
            true => n,
            false => n + 1 + r.below(40),
        };
        let lengths = Lengths {
            text: longer(&mut self.r, need.text),
            list: longer(&mut self.r, need.list),
            workspace: match kind {
                Kind::Exact => need.workspace,
                Kind::Less => need.workspace.checked_sub(1)?,
                Kind::Longer => need.workspace + 1 + self.r.below(40),
                Kind::None => 0,
            },
        };
        let longest = lengths.text.max(lengths.list).max(lengths.workspace);
        (longest <= LENT).then_some(lengths)
    }

    /// The kind for a call after additions.
    fn after(&self, figure: usize) -> Kind {
        match self.turn % 3 {
            0 if figure > 0 => Kind::Less,
            _ => Kind::Exact,
        }
    }

    fn formatting(&mut self, case: &Case, e: &Expected, kinds: &[Kind]) {
        let done = e.answer.as_ref().expect("it finishes");
        let need = Lengths {
            text: done.text.len(),
            list: done.list.len(),
            workspace: done.highest,
        };
        let resolution = e.prepared.as_ref().expect("it has effects");
        let with = |length| workspace::formatting(resolution, length);
        assert!(is_exact(need.workspace, with), "{case:?}");
        let held = self.held(&case.bundle, &e.store);
        self.format_with(case, e, &held, need, kinds);
        if done.unfound == 0 {
            let held = self.added(held);
            let later = Case {
                bundle: held.bundle.clone(),
                ..case.clone()
            };
            let again = expected(&later).unwrap_or_else(|d| panic!("{later:?}: {d}"));
            assert_eq!(again.answer, e.answer, "additions change nothing");
            assert!(held.slice.starts_with(&again.store));
            self.format_with(&later, &again, &held, need, &[self.after(need.workspace)]);
        }
    }

    /// A formatting from this slice, with a workspace of each kind.
    fn format_with(
        &mut self,
        case: &Case,
        e: &Expected,
        held: &Held,
        need: Lengths,
        kinds: &[Kind],
    ) {
        let mut format = format_of(case, e);
        format.store = held.slice.clone();
        let length = held.slice.len() + e.arguments.len() + need.text + need.list;
        if length + FIELDS > LONGEST {
            return;
        }
        for kind in kinds {
            if let Some(lengths) = self.lent(*kind, need) {
                let answer = e.with(lengths);
                match lengths.workspace < need.workspace {
                    true => assert_eq!(answer, Err(16), "{case:?}"),
                    false => assert_eq!(answer, e.answer, "{case:?}"),
                }
                format.write(&mut self.figures, Some(lengths), answer, e.from_rust);
            }
        }
    }

    fn sheet(&mut self, sheet: &Sheet, e: &ExpectedSheet, kinds: &[Kind]) {
        let done = e.answer.as_ref().expect("it finishes");
        let need = Lengths {
            text: done.text.len(),
            list: done.list.len(),
            workspace: done.figures.highest,
        };
        let with = |length| workspace::sheet(&e.prepared, length).expect("it has effects");
        assert!(is_exact(need.workspace, with), "{sheet:?}");
        let held = self.held(&sheet.bundle, &e.store);
        self.sheet_with(e, &held, need, kinds);
        if done.figures.unfound == 0 {
            let held = self.added(held);
            let later = Sheet {
                bundle: held.bundle.clone(),
                rows: sheet.rows.clone(),
            };
            let again = expected_sheet(&later).unwrap_or_else(|d| panic!("{later:?}: {d}"));
            assert_eq!(again.answer, e.answer, "additions change nothing");
            assert!(held.slice.starts_with(&again.store));
            self.sheet_with(&again, &held, need, &[self.after(need.workspace)]);
        }
    }

    /// A sheet from this slice, with a workspace of each kind. What is too long is
    /// left out by `write`.
    fn sheet_with(&mut self, e: &ExpectedSheet, held: &Held, need: Lengths, kinds: &[Kind]) {
        let bytes = (&held.slice[..], &e.sheet[..]);
        for kind in kinds {
            if let Some(lengths) = self.lent(*kind, need) {
                let number = e.with(lengths).err().map(|refused| refused.number());
                let wanted = (lengths.workspace < need.workspace).then_some(16);
                assert_eq!(number, wanted, "{kind:?}");
                sheets::write(&mut self.figures, bytes, lengths, &e.prepared, e.from_rust);
            }
        }
    }

    /// The bundle's slice, with room for some additions.
    fn held(&mut self, bundle: &Bundle, store: &[u8]) -> Held {
        let mut slice = store.to_vec();
        slice.resize(store.len() + 50 + self.r.below(100), BEFORE);
        Held {
            bundle: bundle.clone(),
            slice,
        }
    }

    /// What two to five additions leave.
    fn added(&mut self, mut held: Held) -> Held {
        for _ in 0..2 + self.r.below(4) {
            let next = addition(&mut self.r, &mut self.maker, &held.slice);
            let length = match &next {
                Addition::Resource { image, list, .. } => image.len() + list,
                Addition::Function { id, .. } => id.len(),
            };
            if 2 * held.slice.len() + length + FIELDS <= LONGEST {
                self.add(&mut held, next);
            }
        }
        held
    }

    fn add(&mut self, held: &mut Held, next: Addition) {
        let file = &mut self.additions;
        let (after, item) = match next {
            Addition::Resource { image, tree, list } if image != encode::resource(&tree) => {
                // The Rust can't be given one that is still well-formed.
                if reader::resource(&image).is_none() {
                    resource_case(file, 1, &held.slice, &image, list, None);
                }
                return;
            }
            Addition::Resource { image, tree, list } => {
                let (errors, _) = rust_list(&held.bundle, &tree);
                let after = resource_case(file, 1, &held.slice, &image, list, Some(&errors));
                (after, Item::Plain(tree))
            }
            Addition::Function { id, code } => {
                let after = function_case(file, &held.slice, id.as_bytes(), code);
                (after, Item::Function(id))
            }
        };
        if let Some(after) = after {
            held.slice = after;
            held.bundle.items.push(item);
        }
    }
}
