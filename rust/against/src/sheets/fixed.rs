//! Sheets that are not left to chance: the hand-made ones, every change of a
//! rich image, and the largest.

use super::Input;
use crate::Counts;
use harness::boundaries;
use harness::bytes::Write;
use harness::encode;
use harness::expected_sheet;
use harness::model::effects::Lengths;
use harness::model::reader::Row;
use harness::model::sheet::prepare;
use harness::random::Random;
use harness::sheet_points::{sheet, sheet_points};
use harness::vectors::sheets::each_message;

/// All of them, or what differs.
pub fn all(counts: &mut Counts) -> Result<(), String> {
    let mut random = Random::new(18);
    points(&mut random, counts)?;
    images(&mut random, counts)?;
    every_change(&mut random, counts)?;
    largest(&mut random, counts)
}

/// A call with a sheet image, on the store of a source.
fn call(
    source: &str,
    image: &[u8],
    lengths: Lengths,
    random: &mut Random,
    counts: &mut Counts,
) -> Result<(), String> {
    let store = encode::store(&sheet(source, "").bundle);
    let input = Input {
        store: &store,
        sheet: image,
        prepared: &prepare(&store, image),
    };
    input.compare(lengths, random, counts)
}

/// The hand-made sheets, with buffers that just fit, and one a byte short at
/// each message.
fn points(random: &mut Random, counts: &mut Counts) -> Result<(), String> {
    for sheet in sheet_points() {
        let expected = expected_sheet(&sheet)?;
        let input = Input {
            store: &expected.store,
            sheet: &expected.sheet,
            prepared: &expected.prepared,
        };
        for lengths in each_message(&expected) {
            input.compare(lengths, random, counts)?;
        }
    }
    Ok(())
}

const LENT: Lengths = Lengths {
    text: 300,
    list: 300,
    workspace: 10,
};

/// The hand-made images, well-formed and not.
fn images(random: &mut Random, counts: &mut Counts) -> Result<(), String> {
    for (image, _) in boundaries::sheets() {
        for list in [4, 300] {
            let lengths = Lengths { list, ..LENT };
            call("a = A\nb = B{ $n }", &image, lengths, random, counts)?;
        }
    }
    Ok(())
}

/// Every other byte at every place, every truncation, and some more bytes, of
/// an image with all that one can have.
fn every_change(random: &mut Random, counts: &mut Counts) -> Result<(), String> {
    let source = "a = A{ $n }\n.x = { $s } { $q }\nab-9 =\n.x = X\nc = { zz }{ $m }";
    let whole = sheet(
        source,
        "a; a.x q=none s=2.5 t=x; ab-9.x n=-15; c m=none n=é",
    )
    .image();
    let mut changed = whole.clone();
    for at in 0..whole.len() {
        for value in (0..=255).filter(|value| *value != whole[at]) {
            changed[at] = value;
            counts.damaged += 1;
            call(source, &changed, LENT, random, counts)?;
        }
        changed[at] = whole[at];
    }
    for length in 0..whole.len() {
        let mut cut = whole[..length].to_vec();
        call(source, &cut, LENT, random, counts)?;
        if let Some(stated) = cut.get_mut(..4) {
            stated.copy_from_slice(&(length as u32).to_be_bytes());
        }
        counts.damaged += 2;
        call(source, &cut, LENT, random, counts)?;
    }
    for more in 1..30 {
        let mut longer = whole.clone();
        longer.resize(whole.len() + more, 0);
        call(source, &longer, LENT, random, counts)?;
        longer[..4].copy_from_slice(&((whole.len() + more) as u32).to_be_bytes());
        counts.damaged += 2;
        call(source, &longer, LENT, random, counts)?;
    }
    Ok(())
}

/// An arguments image of this many bytes, 13 or more, or of none: `n` is a text.
fn arguments(length: usize) -> Vec<u8> {
    let mut out = Vec::new();
    out.u32(length);
    match length {
        7 => out.raw(&[1, 0, 0]),
        _ => {
            out.raw(&[1, 0, 1, 0, 1, b'n', 1]);
            out.u16((length - 13).min(65_535));
            out.resize(length, b'x');
        }
    }
    out
}

fn row(arguments: Vec<u8>) -> Row {
    Row {
        message: b"a".to_vec(),
        attribute: None,
        arguments,
    }
}

/// Arguments images of 65,536 bytes and one more, sheets of 1,048,576 bytes and
/// one more, and 65,535 messages, with buffers that just fit, or are a byte
/// short.
fn largest(random: &mut Random, counts: &mut Counts) -> Result<(), String> {
    let source = "a = { $n }";
    let text_of = |rows: &[Row]| match rows.len() {
        65_535 => 4 * rows.len(),
        _ => rows.iter().map(|r| r.arguments.len() - 13).sum(),
    };
    let records = |rows: &[Row]| match rows.len() {
        65_535 => 8 * rows.len(),
        _ => 0,
    };
    let full = |last: usize| {
        let mut rows = vec![row(arguments(65_536)); 15];
        rows.push(row(arguments(last)));
        rows
    };
    let most = 1_048_576 - 7 - 15 * 65_540 - 4;
    for rows in [
        vec![row(arguments(65_536))],
        vec![
            row(arguments(20)),
            row(arguments(65_536)),
            row(arguments(20)),
        ],
        vec![row(arguments(65_537))],
        vec![
            row(arguments(20)),
            row(arguments(65_537)),
            row(arguments(20)),
        ],
        full(most),
        full(most + 1),
        vec![row(arguments(7)); 65_535],
    ] {
        let image = encode::sheet(&rows);
        let exact = Lengths {
            text: text_of(&rows),
            list: 5 + records(&rows),
            workspace: 0,
        };
        let text = exact.text - 1;
        let list = exact.list - 1;
        for lengths in [exact, Lengths { text, ..exact }, Lengths { list, ..exact }] {
            call(source, &image, lengths, random, counts)?;
        }
    }
    Ok(())
}
