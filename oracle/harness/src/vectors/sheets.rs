//! sheets.vec: sheets with lent lengths.

use super::formats::{hurt, LENT};
use super::{File, CASES};
use crate::bytes::Write;
use crate::case::Sheet;
use crate::model::effects::Lengths;
use crate::model::sheet::{join, prepare, Prepared};
use crate::random::Random;
use crate::sheet_points::{sheet, sheet_points};
use crate::{expected_sheet, sheet_generator, ExpectedSheet};

/// Every case is shorter.
pub(super) const LONGEST: usize = 4400;

pub fn make(seed: u64, cases: usize) -> File {
    let mut r = Random::new(seed ^ 5);
    let mut file = File::default();
    for sheet in sheet_points() {
        point(&mut file, &sheet);
    }
    before_any(&mut file);
    let mut at = seed.wrapping_mul(11_000_027);
    let end = file.count() + 850 * cases / CASES;
    while file.count() < end {
        at += 1;
        let sheet = sheet_generator(at);
        let e = expected_sheet(&sheet).unwrap_or_else(|d| panic!("sheet {at}: {d}"));
        if worth(&mut r, &e) {
            match r.below(6) {
                0 => damaged(&mut file, &mut r, &e),
                _ => lent(&mut file, &mut r, &e),
            };
        }
    }
    file
}

/// Writes operation 50, unless it is too long.
pub(super) fn write(
    file: &mut File,
    (store, sheet): (&[u8], &[u8]),
    lengths: Lengths,
    prepared: &Prepared,
    from_rust: bool,
) -> bool {
    if lengths.text > LENT || lengths.list > LENT || lengths.workspace > LENT {
        return false;
    }
    let mut case = Vec::new();
    case.blob(store);
    case.blob(sheet);
    case.u32(lengths.text);
    case.u32(lengths.list);
    case.u32(lengths.workspace);
    match join(prepared, lengths) {
        Err(refused) => case.u8(refused.number()),
        Ok(done) => {
            case.u8(0);
            case.blob(done.text);
            case.blob(done.list);
            case.u32(done.figures.errors);
            case.u32(done.figures.begun);
            case.u32(usize::try_from(done.figures.unfound).expect("few"));
            case.u32(done.figures.highest);
            case.u8(u8::from(!from_rust));
        }
    }
    case.len() < LONGEST && file.case(50, case)
}

/// A hand-made sheet with buffers that just fit, and with one a byte short at
/// each of its messages.
fn point(file: &mut File, sheet: &Sheet) {
    let e = expected_sheet(sheet).unwrap_or_else(|d| panic!("{sheet:?}: {d}"));
    let bytes = (&e.store[..], &e.sheet[..]);
    for lengths in each_message(&e) {
        write(file, bytes, lengths, &e.prepared, e.from_rust);
    }
}

/// What a sheet needs up to each message, from none to all; where a message is
/// refused, nothing is needed for it.
pub fn needs(prepared: &Prepared) -> Vec<Lengths> {
    let messages = prepared.as_ref().map_or(&[][..], |m| m);
    let mut all = vec![Lengths {
        text: 0,
        list: 5,
        workspace: 0,
    }];
    for message in messages {
        let mut next = *all.last().expect("the first");
        let one = crate::model::operations::format(message, Lengths::AMPLE);
        if let (Ok(done), Ok(_)) = (one, message) {
            next.text += done.text.len();
            next.list += done.list.len() - 5;
            next.workspace = next.workspace.max(done.highest);
        }
        all.push(next);
    }
    all
}

/// Just enough for the whole sheet, and one byte short at each message for the
/// text, the list and the workspace.
pub fn each_message(e: &ExpectedSheet) -> Vec<Lengths> {
    let needs = needs(&e.prepared);
    let whole = *needs.last().expect("one at least");
    let ample = Lengths {
        text: whole.text + 40,
        list: whole.list + 40,
        workspace: whole.workspace + 40,
    };
    let mut all = vec![whole, ample];
    for pair in needs.windows(2) {
        let [before, after] = [pair[0], pair[1]];
        if after.text > before.text {
            let text = after.text - 1;
            all.push(Lengths { text, ..whole });
        }
        if after.list > before.list {
            let list = after.list - 1;
            all.push(Lengths { list, ..ample });
        }
        if after.workspace > before.workspace {
            let workspace = after.workspace - 1;
            all.push(Lengths { workspace, ..ample });
        }
    }
    all
}

/// 4, 18 and the 7 of a list under 5 bytes, alone and together, and before
/// what a message would meet.
fn before_any(file: &mut File) {
    for rows in ["", "a", "zz", "a; a", "a !version"] {
        let e = expected_sheet(&sheet("a = A{ $n }", rows)).expect("they agree");
        let bad_store = [&e.store[..e.store.len() - 1], &[9]].concat();
        let bad_sheet = [&e.sheet[..], &[0]].concat();
        for store in [&e.store, &bad_store, &Vec::new()] {
            for image in [&e.sheet, &bad_sheet, &Vec::new()] {
                for list in [0, 4, 5, 30] {
                    let lengths = Lengths {
                        text: 30,
                        list,
                        workspace: 3,
                    };
                    let prepared = prepare(store, image);
                    write(file, (store, image), lengths, &prepared, false);
                }
            }
        }
    }
}

/// Keeps the file small and its cases telling.
fn worth(r: &mut Random, e: &ExpectedSheet) -> bool {
    let length = e.store.len() + e.sheet.len();
    let done = match &e.answer {
        Ok(done) => done,
        Err(_) => return length < 300 && r.one_in(2),
    };
    let messages = e.prepared.as_ref().map_or(0, Vec::len);
    match length {
        _ if messages < 2 => false,
        0..=350 => done.figures.errors > 0 || done.figures.highest > 0 || r.one_in(4),
        351..=900 => r.one_in(4),
        _ => length < 2000 && r.one_in(20),
    }
}

/// A sheet with lent lengths, near what it needs up to some message.
fn lent(file: &mut File, r: &mut Random, e: &ExpectedSheet) -> bool {
    let needs = needs(&e.prepared);
    let whole = *needs.last().expect("one at least");
    let some = *r.pick(&needs);
    let mut lengths = whole;
    match r.below(8) {
        0 | 1 => {}
        2 => lengths.text = some.text.saturating_sub(1),
        3 => lengths.list = some.list - 1,
        4 => lengths.workspace = some.workspace.saturating_sub(1),
        5 => lengths.list = some.list + r.below(12),
        6 => {
            lengths.text = some.text + r.below(8);
            lengths.list = some.list + r.below(8);
            lengths.workspace = r.below(whole.workspace + 2);
        }
        _ => {
            lengths.text += r.below(9);
            lengths.list += r.below(9);
            lengths.workspace += r.below(9);
        }
    }
    let store = longer(r, &e.store);
    write(file, (&store, &e.sheet), lengths, &e.prepared, e.from_rust)
}

/// The slice of a store may be longer than what is used.
fn longer(r: &mut Random, store: &[u8]) -> Vec<u8> {
    let mut slice = store.to_vec();
    if r.one_in(6) {
        slice.resize(store.len() + 1 + r.below(9), 0xAA);
    }
    slice
}

/// A sheet whose image or store was changed.
fn damaged(file: &mut File, r: &mut Random, e: &ExpectedSheet) -> bool {
    let (mut store, mut sheet) = (e.store.clone(), e.sheet.clone());
    match r.below(5) {
        0 => hurt(r, &mut store),
        1 => {
            hurt(r, &mut store);
            hurt(r, &mut sheet);
        }
        _ => hurt(r, &mut sheet),
    }
    let lengths = Lengths {
        text: r.below(60),
        list: r.below(40),
        workspace: r.below(10),
    };
    let prepared = prepare(&store, &sheet);
    write(file, (&store, &sheet), lengths, &prepared, false)
}
