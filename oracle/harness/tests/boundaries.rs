//! The small reader says what document 01 says of every hand-made boundary.
#![forbid(unsafe_code)]

use harness::boundaries;
use harness::vectors::images::Kind;

#[test]
fn hand_made_boundaries() {
    for (at, (kind, bytes, fine)) in boundaries::all().into_iter().enumerate() {
        let what = kind as u8;
        assert_eq!(kind.accepts(&bytes), fine, "{at}, {what}: {bytes:02x?}");
    }
}

/// Too large for the committed vectors: 65,536 bytes and one more.
#[test]
fn largest_images() {
    for (length, fine) in [(65_536usize, true), (65_537, false)] {
        let text =
            |length: usize| [&(length as u16).to_be_bytes()[..], &vec![b'x'; length]].concat();
        let all = (length as u32).to_be_bytes();
        // 7 + message a (4), Flag, pattern (6), two elements, no attribute.
        let rest = length - 7 - 5 - 6 - 2 - 6;
        let elements = [&[1][..], &text(rest / 2), &[1], &text(rest - rest / 2)].concat();
        let inner = (elements.len() as u32 + 2).to_be_bytes();
        let image = [
            &all[..],
            &[1, 0, 1, 1, 0, 1, b'a', 1],
            &inner,
            &[0, 2],
            &elements,
            &[0, 0],
        ]
        .concat();
        assert_eq!(image.len(), length);
        assert_eq!(Kind::Resource.accepts(&image), fine);
        let rest = length - 7 - 3 - 3;
        let arguments = [&all[..], &[1, 0, 1, 0, 1, b'n', 1], &text(rest)].concat();
        assert_eq!(arguments.len(), length);
        assert_eq!(Kind::Arguments.accepts(&arguments), fine);
    }
}
