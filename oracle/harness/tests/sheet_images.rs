//! The sheet image, by document 02's Card 1: what refusal 18 judges, and that
//! what is read is written alike.
#![forbid(unsafe_code)]

use harness::boundaries;
use harness::bytes::Write;
use harness::encode;
use harness::model::effects::Lengths;
use harness::model::reader::{self, Row};
use harness::model::sheet::{join, prepare, Refused};
use harness::sheet_points::sheet;

/// The store of a source.
fn store(source: &str) -> Vec<u8> {
    encode::store(&sheet(source, "").bundle)
}

fn row(message: &str, arguments: Vec<u8>) -> Row {
    Row {
        message: message.into(),
        attribute: None,
        arguments,
    }
}

/// An arguments image of this many bytes: `n` is a text, as long as needed; up
/// to 7 bytes there is none.
fn arguments(length: usize) -> Vec<u8> {
    let mut out = Vec::new();
    out.u32(length);
    match length.checked_sub(13) {
        Some(rest) => {
            out.raw(&[1, 0, 1, 0, 1, b'n', 1]);
            out.str(vec![b'x'; rest]);
        }
        None => out.raw(&[1, 0, 0][..length - 4]),
    }
    assert_eq!(out.len(), length);
    out
}

#[test]
fn the_image_as_the_card_has_it() {
    let image = sheet("a = A", "a; b.x n=1").image();
    let mut written = vec![0, 0, 0, 50, 1, 0, 2];
    written.raw(&[0, 1, b'a', 0, 0, 0, 0, 7, 1, 0, 0]);
    written.raw(&[0, 1, b'b', 1, 0, 1, b'x']);
    written.raw(&[0, 0, 0, 21, 1, 0, 1, 0, 1, b'n', 2, 0]);
    written.raw(&[0, 0, 0, 0, 0, 0, 0, 1, 0]);
    written[3] = written.len() as u8;
    assert_eq!(image, written);
}

#[test]
fn hand_made_images() {
    let all = boundaries::sheets();
    assert!(all.len() > 150);
    for (at, (bytes, fine)) in all.into_iter().enumerate() {
        let rows = reader::sheet(&bytes);
        assert_eq!(rows.is_some(), fine, "{at}: {bytes:02x?}");
        if let Some(rows) = rows {
            assert_eq!(encode::sheet(&rows), bytes);
        }
    }
}

/// Every other byte at every place, every truncation and every extension by a
/// byte, of a sheet with all that a sheet can have.
#[test]
fn every_change_of_a_rich_image() {
    let rich = "a; ab-9.x n=-15; c m=none n=é; Z.y-_ s=x s=2.50 q=none; a !left; b !version";
    let whole = sheet("a = A", rich).image();
    let judged = |bytes: &[u8]| match reader::sheet(bytes) {
        Some(rows) => {
            assert_eq!(encode::sheet(&rows), bytes);
            true
        }
        None => false,
    };
    assert!(judged(&whole));
    let (mut accepted, mut changed) = (0, whole.clone());
    for at in 0..whole.len() {
        for value in 0..=255 {
            changed[at] = value;
            let fine = judged(&changed);
            // whole length, version and count have one value each
            assert!(!fine || at >= 7 || value == whole[at]);
            accepted += usize::from(fine);
        }
        changed[at] = whole[at];
    }
    // ids can become other ids, and the insides of arguments anything
    assert!(accepted > whole.len() * 20 && accepted < whole.len() * 256);
    for length in 0..whole.len() {
        assert!(!judged(&whole[..length]));
        let mut cut = whole[..length].to_vec();
        if let Some(stated) = cut.get_mut(..4) {
            stated.copy_from_slice(&(length as u32).to_be_bytes());
        }
        assert!(!judged(&cut));
    }
    for value in 0..=255 {
        let mut longer = [&whole[..], &[value]].concat();
        assert!(!judged(&longer));
        longer[..4].copy_from_slice(&(whole.len() as u32 + 1).to_be_bytes());
        assert!(!judged(&longer));
    }
}

/// 18 judges the length alone; in the message's turn comes what is inside.
#[test]
fn arguments_of_6_7_65536_and_65537_bytes() {
    let store = store("a = { $n }");
    let mut shorter = arguments(7);
    shorter[3] = 6;
    let mut longer = arguments(65_536);
    longer.push(0);
    longer[..4].copy_from_slice(&65_537_u32.to_be_bytes());
    for (image, answer) in [
        (shorter[..6].to_vec(), Err(Refused::Unchanged(18))),
        (arguments(7), Ok("{$n}".len())),
        (vec![0, 0, 0, 7, 2, 0, 0], Err(Refused::Cleared(13))),
        (vec![0, 0, 0, 8, 1, 0, 0, 0], Err(Refused::Cleared(13))),
        (arguments(13), Ok(0)),
        (arguments(65_536), Ok(65_523)),
        (longer, Err(Refused::Unchanged(18))),
    ] {
        for place in 0..3 {
            let mut rows = vec![row("a", arguments(14)); 3];
            rows[place].arguments.clone_from(&image);
            let given = join(&prepare(&store, &encode::sheet(&rows)), Lengths::AMPLE);
            let wanted = answer.map(|text| text + 2);
            assert_eq!(given.map(|d| d.figures.text), wanted);
        }
    }
}

#[test]
fn a_sheet_of_1048576_bytes_and_one_more() {
    let store = store("a = { $n }");
    for (length, fine) in [(1_048_576, true), (1_048_577, false)] {
        // 15 messages of 65,540 bytes, and what is left
        let mut rows = vec![row("a", arguments(65_536)); 15];
        rows.push(row("a", arguments(length - 7 - 15 * 65_540 - 4)));
        let image = encode::sheet(&rows);
        assert_eq!(image.len(), length);
        assert_eq!(reader::sheet(&image), fine.then_some(rows));
        let given = join(&prepare(&store, &image), Lengths::AMPLE);
        match fine {
            true => {
                let texts = length - 7 - 16 * (4 + 13);
                assert_eq!(given.map(|d| d.figures.text), Ok(texts));
            }
            false => assert_eq!(given, Err(Refused::Unchanged(18))),
        }
    }
}
