//! Images with as many arguments as fit, too long for a vector.

use crate::case::Value;
use crate::encode::listed;
use crate::generator::most;

/// How many names fit into 65,536 bytes: 52 of one byte, 52 times 64 of two, and
/// 8,113 of three, each with three bytes more, and seven before them: 65,533.
const MOST: usize = 11_493;

/// The same name so many times: four bytes each and seven, 65,535.
const EQUAL: usize = 16_382;

/// An image, how many bytes and arguments it has, and its answer.
pub struct Large {
    pub what: &'static str,
    pub bytes: Vec<u8>,
    pub length: usize,
    pub arguments: usize,
    pub answer: u8,
}

type Named = Vec<(String, Value)>;

/// All of them.
pub fn largest() -> Vec<Large> {
    let all = named(MOST);
    let swapped = |at: usize| {
        let mut all = all.clone();
        all.swap(at, at + 1);
        all
    };
    let reversed = all.iter().rev().cloned().collect();
    let doubled = |at: usize| {
        let mut all = named(MOST - 1);
        all.insert(at, all[at].clone());
        all
    };
    let equal = vec![("a".to_string(), Value::None); EQUAL];
    let last = MOST - 2;
    vec![
        large("in order", all.clone(), 65_533, 0),
        large("the first two exchanged", swapped(0), 65_533, 19),
        large("two in the middle exchanged", swapped(6_000), 65_533, 19),
        large("the last two exchanged", swapped(last), 65_533, 19),
        large("reversed", reversed, 65_533, 19),
        large("the first twice", doubled(0), 65_531, 19),
        large("one name over and over", equal, 65_535, 19),
        large("filled", filled(11_000, 65_536), 65_536, 0),
        large("filled and a byte more", filled(11_000, 65_537), 65_537, 13),
        large("filled and reversed", back(11_000, 65_536), 65_536, 19),
        large("longer and reversed", back(11_000, 65_537), 65_537, 13),
    ]
}

fn large(what: &'static str, given: Named, length: usize, answer: u8) -> Large {
    Large {
        what,
        bytes: listed(&given),
        length,
        arguments: given.len(),
        answer,
    }
}

fn named(count: usize) -> Named {
    let names = most(count).into_iter();
    names.map(|name| (name, Value::None)).collect()
}

/// With a text as the last value that makes the image so long.
fn filled(count: usize, length: usize) -> Named {
    let mut given = named(count);
    given[count - 1].1 = Value::Text(String::new());
    let room = length - listed(&given).len();
    given[count - 1].1 = Value::Text("x".repeat(room));
    given
}

fn back(count: usize, length: usize) -> Named {
    filled(count, length).into_iter().rev().collect()
}
