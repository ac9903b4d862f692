//! Sheet images at the edges of document 02's rule.

use super::parts::{id, image_of};
use super::Bytes;
use crate::bytes::Write;

/// An arguments image with this stated length and this many bytes in all.
fn stated(length: usize, bytes: usize) -> Bytes {
    let mut out = Bytes::new();
    out.u32(length);
    out.raw(&[1, 0, 0]);
    out.resize(bytes, 0);
    out
}

fn none() -> Bytes {
    stated(7, 7)
}

/// A message with these bytes for its attribute, its Flag among them.
fn row(name: &[u8], attribute: &[u8], arguments: &[u8]) -> Bytes {
    let mut out = Bytes::new();
    out.str(name);
    out.raw(attribute);
    out.raw(arguments);
    out
}

fn plain(name: &[u8]) -> Bytes {
    row(name, &[0], &none())
}

/// A sheet of a message `b` and this one.
fn second(message: &[u8]) -> Bytes {
    image_of(2, &[&plain(b"b"), message].concat())
}

/// With whether document 02 accepts it.
pub fn sheets() -> Vec<(Bytes, bool)> {
    let mut out = Vec::new();
    heads(&mut out);
    ids(&mut out);
    lengths(&mut out);
    out
}

/// Whole length, version, count.
fn heads(out: &mut Vec<(Bytes, bool)>) {
    let one = plain(b"a");
    let two = [plain(b"a"), plain(b"b")].concat();
    out.push((image_of(0, &[]), true));
    out.push((image_of(1, &one), true));
    out.push((image_of(2, &two), true));
    for length in 0..7 {
        out.push((image_of(0, &[])[..length].to_vec(), false));
        out.push((vec![0; length], false));
    }
    for (count, rows) in [
        (1, &[][..]),
        (0, &one),
        (2, &one),
        (1, &two),
        (3, &two),
        (65_535, &two),
    ] {
        out.push((image_of(count, rows), false));
    }
    for version in [0, 2, 255] {
        for bytes in [image_of(0, &[]), image_of(1, &one)] {
            let mut bytes = bytes;
            bytes[4] = version;
            out.push((bytes, false));
        }
    }
    // The whole length one less and one more, the slice as it was; and the
    // slice one less and one more, the length as it was or with it.
    for bytes in [image_of(0, &[]), image_of(2, &two)] {
        let with = |length: usize, slice: &[u8]| {
            let mut out = slice.to_vec();
            out[..4].copy_from_slice(&(length as u32).to_be_bytes());
            out
        };
        let length = bytes.len();
        let longer = [&bytes[..], &[0]].concat();
        let shorter = &bytes[..length - 1];
        out.push((with(length - 1, &bytes), false));
        out.push((with(length + 1, &bytes), false));
        out.push((with(0, &bytes), false));
        out.push((
            with(usize::try_from(u32::MAX).expect("64 bits"), &bytes),
            false,
        ));
        out.push((longer.clone(), false));
        out.push((with(length + 1, &longer), false));
        out.push((shorter.to_vec(), false));
        out.push((with(length - 1, shorter), false));
    }
}

/// The ids of messages and attributes, and the Flag before the latter.
fn ids(out: &mut Vec<(Bytes, bool)>) {
    let long = vec![b'a'; 255];
    let longer = vec![b'a'; 256];
    let names: [(&[u8], bool); 14] = [
        (b"a", true),
        (b"Z-_9", true),
        (&long, true),
        (&longer, false),
        (b"", false),
        (b"1a", false),
        (b"-a", false),
        (b"_a", false),
        (b"a.x", false),
        (b"a b", false),
        (b"a\0", false),
        (b"$n", false),
        ("é".as_bytes(), false),
        (b"\xFF", false),
    ];
    for (name, fine) in names {
        out.push((image_of(1, &plain(name)), fine));
        out.push((second(&plain(name)), fine));
        let attribute = [&[1][..], &(name.len() as u16).to_be_bytes(), name].concat();
        out.push((image_of(1, &row(b"a", &attribute, &none())), fine));
        out.push((second(&row(b"a", &attribute, &none())), fine));
        // An attribute where the Flag is 0.
        let attribute = [&[0], &attribute[1..]].concat();
        out.push((image_of(1, &row(b"a", &attribute, &none())), false));
    }
    for flag in [2, 3, 128, 255] {
        out.push((image_of(1, &row(b"a", &[flag], &none())), false));
        let attribute = [&[flag][..], &id("x")].concat();
        out.push((second(&row(b"a", &attribute, &none())), false));
    }
    // No attribute where the Flag is 1.
    out.push((image_of(1, &row(b"a", &[1], &none())), false));
    // An id that passes the sheet's end.
    let mut bytes = image_of(1, &plain(b"a"));
    bytes[8] = 12;
    out.push((bytes, false));
}

/// The lengths of arguments images: only 7 to 65,536 and inside the sheet.
fn lengths(out: &mut Vec<(Bytes, bool)>) {
    let lengths = [
        (0, false),
        (3, false),
        (4, false),
        (5, false),
        (6, false),
        (7, true),
        (8, true),
        (255, true),
        (256, true),
        (1000, true),
    ];
    for (length, fine) in lengths {
        let arguments = stated(length, length.max(4));
        let arguments = &arguments[..length.max(4)];
        out.push((image_of(1, &row(b"a", &[0], arguments)), fine));
        out.push((second(&row(b"a", &[0], arguments)), fine));
        let first = [&row(b"a", &[0], arguments)[..], &plain(b"b")].concat();
        out.push((image_of(2, &first), fine));
    }
    // What is wrong inside is not the sheet's.
    for byte in [0, 2, 255] {
        let mut arguments = stated(12, 12);
        arguments[4..].fill(byte);
        out.push((image_of(1, &row(b"a", &[0], &arguments)), true));
    }
    // A stated length that is not what stands there.
    for length in [6, 8, 18, 19, 65_536, 65_537, 0x0100_0007, u32::MAX as usize] {
        out.push((image_of(1, &row(b"a", &[0], &stated(length, 7))), false));
    }
    // Its own end, or that of the next message.
    let rows = |length: usize| [row(b"a", &[0], &stated(length, 7)), plain(b"b")].concat();
    for length in [6, 8, 17, 18, 19] {
        let fine = length == 18;
        out.push((image_of(1, &rows(length)), fine));
        out.push((image_of(2, &rows(length)), false));
    }
    // Cut inside the stated length, and inside the length itself.
    for kept in 0..7 {
        let message = row(b"a", &[0], &none()[..kept]);
        out.push((image_of(1, &message), false));
        out.push((second(&message), false));
    }
}
