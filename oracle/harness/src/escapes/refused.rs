//! String literals that document 01 refuses.

use crate::model::escapes::DIGITS;

/// What stands at the place of a digit, and is none: the neighbours of the three
/// ranges of digits, other bytes, and characters of several bytes.
const WRONG: [&[u8]; 33] = [
    b"/",
    b":",
    b"@",
    b"G",
    b"`",
    b"g",
    b"\0",
    b" ",
    b"\n",
    // with other bits than a digit's
    b"\x01",
    b"\x06",
    b"\x10",
    b"\x19",
    b"!",
    b"&",
    b"p",
    b"y",
    // signs, and letters
    b"+",
    b"-",
    b"_",
    b"x",
    b"O",
    b"l",
    b"Z",
    b"z",
    b"\x7F",
    b"\"",
    b"{",
    // characters that mean a digit elsewhere, or look like one
    "\u{0664}".as_bytes(),
    "\u{FF10}".as_bytes(),
    "\u{FF21}".as_bytes(),
    "\u{0430}".as_bytes(),
    "\u{0175}".as_bytes(),
];

/// Escapes in which each place is made wrong in turn.
const WHOLE: [&str; 2] = [r"\u0175", r"\U01f40B"];

/// What may stand behind an escape with too few digits.
const BEHIND: [&str; 5] = ["", "?", "\\\"", "\\\\", "\\u0175"];

/// Letters behind a backslash that are none of the four, and backslashes at the end.
const OTHERS: [&[u8]; 48] = [
    br"\x41",
    br"\n",
    br"\r",
    br"\t",
    br"\0",
    br"\1",
    br"\a",
    br"\b",
    br"\e",
    br"\f",
    br"\v",
    br"\'",
    br"\ ",
    br"\/",
    br"\{",
    br"\-",
    br"\&",
    br"\t0041",
    br"\v0041",
    br"\T000041",
    br"\V000041",
    br"\5000041",
    br"\u{0041}",
    br"\U{000041}",
    br"\u+041",
    br"\u-041",
    br"\u0x41",
    br"\U+00041",
    br"\N{BULLET}",
    b"\\\xC3\xA9",
    b"\\\xC2\xB5",
    b"\\\n",
    b"\\\0",
    b"\\\xF50041",
    b"\\\xD5000041",
    br"\",
    br"x\",
    br"\\\",
    br"\\\\\",
    br#"\"\"#,
    br"\u0041\",
    br"\U01F40B\",
    b"\xC3\xA9\\",
    br"\u0041\x41",
    br"\x41\u0041",
    br"\u0041\u004g",
    br"\u004g\u0041",
    br"\U000041\U00004",
];

pub(super) fn all() -> Vec<Vec<u8>> {
    let mut all = Vec::new();
    for whole in WHOLE {
        let whole = whole.as_bytes();
        for at in 2..whole.len() {
            let mut with = |wrong: &[u8]| {
                all.push([&whole[..at], wrong, &whole[at + 1..]].concat());
            };
            WRONG.into_iter().for_each(&mut with);
            // the digits with 128 added, which is no UTF-8 either
            for digit in DIGITS {
                with(&[digit | 0x80]);
            }
        }
        for end in 2..whole.len() {
            for behind in BEHIND {
                all.push([&whole[..end], behind.as_bytes()].concat());
            }
        }
    }
    all.extend(OTHERS.map(<[u8]>::to_vec));
    all
}
