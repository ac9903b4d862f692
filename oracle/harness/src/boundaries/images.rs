//! Lengths and versions, arguments images and stores.

use super::parts::*;
use super::{Boundary, Bytes};
use crate::bytes::Write;
use crate::vectors::images::Kind::*;

/// Lengths one more and one less than what they hold.
pub(super) fn lengths(out: &mut Vec<Boundary>) {
    let fine = image(&word());
    let add = |bytes: &[u8], at: usize, n: i8| {
        let mut changed = bytes.to_vec();
        changed[at] = changed[at].wrapping_add_signed(n);
        changed
    };
    out.push((Resource, fine.clone(), true));
    for n in [-1, 1] {
        // The whole length, the pattern's, the text's.
        for at in [3, 15, 19] {
            out.push((Resource, add(&fine, at, n), false));
        }
    }
    out.push((Resource, [&fine[..], &[0]].concat(), false));
    out.push((Resource, fine[..fine.len() - 1].to_vec(), false));
    for version in [0, 2, 255] {
        let mut bytes = fine.clone();
        bytes[4] = version;
        out.push((Resource, bytes, false));
    }
    // A variant's pattern that is too short or too long inside its holder.
    let variant = placeable(&select(&literal(2, b"1"), &[(key("o"), 1, word())]));
    let at = variant.len() - 2 - word().len() + 3;
    out.push((Resource, variant.clone(), true));
    for n in [-1, 1] {
        out.push((Resource, add(&variant, at, n), false));
        // The holder's length is changed with it.
        let both = add(&add(&variant, at, n), 15, n);
        out.push((Resource, both, false));
    }
    for length in 0..7 {
        out.push((Resource, vec![0; length], false));
        out.push((Arguments, vec![0; length], false));
        out.push((Store, vec![0; length], false));
    }
}

pub(super) fn arguments(out: &mut Vec<Boundary>) {
    let number = |sign: u8, digits: u64, scale: u8| {
        let mut value = id("n");
        value.raw(&[2, sign]);
        value.u64(digits);
        value.u8(scale);
        image_of(1, &value)
    };
    let most = 999_999_999_999_999;
    let cases = [
        (number(0, 0, 0), true),
        (number(1, 0, 14), true),
        (number(0, most, 0), true),
        (number(1, most, 14), true),
        (number(0, 10, 1), true),
        (number(0, most + 1, 0), false),
        (number(0, u64::MAX, 0), false),
        (number(0, 1 << 63, 3), false),
        (number(2, 1, 0), false),
        (number(255, 1, 0), false),
        (number(0, 1, 15), false),
        (number(0, 1, 255), false),
        (image_of(0, &[]), true),
        (image_of(1, &[]), false),
        (
            image_of(2, &[&id("n")[..], &[3], &id("n"), &[3]].concat()),
            true,
        ),
        (image_of(1, &[&id("n")[..], &[3, 0]].concat()), false),
        (image_of(1, &[&id("n")[..], &[1, 0, 0]].concat()), true),
    ];
    for (bytes, fine) in cases {
        out.push((Arguments, bytes, fine));
    }
    let fine = image_of(1, &[&id("n")[..], &[3]].concat());
    for at in [3, 4, 6] {
        for n in [-1, 1] {
            let mut changed = fine.clone();
            changed[at] = changed[at].wrapping_add_signed(n);
            out.push((Arguments, changed, false));
        }
    }
}

pub(super) fn stores(out: &mut Vec<Boundary>) {
    let mut more = |bytes: Bytes, fine| out.push((Store, bytes, fine));
    more(store(0, &[]), true);
    more([&store(0, &[])[..], &[0xAA; 5]].concat(), true);
    more(store(0, &[])[..8].to_vec(), false);
    let with = |at: usize, value: u8| {
        let mut bytes = store(0, &[]);
        bytes[at] = value;
        bytes
    };
    for (at, value, fine) in [
        (3, 8, false),
        (3, 10, false),
        (0, 1, false),
        (4, 0, false),
        (4, 2, false),
        (5, 3, true),
        (5, 4, false),
        (6, 0, true),
        (6, 2, false),
        (8, 1, false),
    ] {
        more(with(at, value), fine);
    }
    let plain = [&[1][..], &image(&word())].concat();
    let overriding = [&[2][..], &image(&word())].concat();
    let number = [3, 0, 0, 0, 9, 1, 1, 0, 1, b'F'];
    more(store(1, &plain), true);
    more(store(2, &[&plain[..], &overriding].concat()), true);
    more(store(1, &[&plain[..], &overriding].concat()), false);
    more(store(3, &[&plain[..], &overriding].concat()), false);
    more(store(1, &number), true);
    // A function whose id has an entry, twice the same function.
    more(store(2, &number.repeat(2)), true);
    for (at, value) in [
        (0, 0),
        (0, 4),
        (4, 8),
        (4, 10),
        (5, 0),
        (5, 2),
        (6, 0),
        (6, 2),
        (9, b'1'),
    ] {
        let mut changed = number;
        changed[at] = value;
        more(store(1, &changed), false);
    }
    // A function record with something left over, and an image likewise.
    more(store(1, &[3, 0, 0, 0, 10, 1, 1, 0, 1, b'F', 0]), false);
    more(store(1, &[1, 0, 0, 0, 8, 1, 0, 0, 0]), false);
    more(store(1, &[1, 0, 0, 0, 7, 1, 0, 0]), true);
    // A malformed image inside.
    more(
        store(1, &[&[1][..], &image(&pattern_of(0, &[]))].concat()),
        false,
    );
    // The end of the used bytes inside an item, the slice going on.
    let mut short = store(1, &plain);
    short[3] -= 1;
    more(short, false);
    let empty = [1, 0, 0, 0, 7, 1, 0, 0];
    more(store(256, &empty.repeat(256)), true);
    more(store(257, &empty.repeat(257)), false);
}
