//! The ways in which arguments are listed.

use super::super::words::USUAL;
use crate::case::Value;
use crate::model::number::Decimal;
use crate::random::Random;

/// How arguments are listed.
#[derive(Clone, Copy, Debug, PartialEq, Eq)]
pub enum Listing {
    /// Sorted, no name twice, least scales.
    Accepted,
    /// The same in another order.
    Reordered,
    /// With a name twice.
    Repeated,
    /// With a scale that is not least.
    Scaled,
    /// Two or three of these.
    Mixed,
}

/// All of them.
pub const LISTINGS: [Listing; 5] = [
    Listing::Accepted,
    Listing::Reordered,
    Listing::Repeated,
    Listing::Scaled,
    Listing::Mixed,
];

type Given = Vec<(String, Value)>;

impl Listing {
    pub(super) fn any(r: &mut Random) -> Self {
        *r.pick(&LISTINGS)
    }

    /// Lists accepted arguments so. Where there are too few, some are added.
    pub(super) fn of(self, r: &mut Random, accepted: Given) -> Given {
        let mut given = accepted;
        match self {
            Self::Accepted => {}
            Self::Reordered => reorder(r, &mut given),
            Self::Repeated => repeat(r, &mut given),
            Self::Scaled => scale(r, &mut given),
            Self::Mixed => {
                let first = r.below(3);
                let steps: [fn(&mut Random, &mut Given); 3] = [reorder, repeat, scale];
                for at in 0..2 + r.below(2) {
                    steps[(first + at) % 3](r, &mut given);
                }
            }
        }
        given
    }
}

/// Puts some at other places.
fn reorder(r: &mut Random, given: &mut Given) {
    for name in ["n", "m"] {
        if given.len() < 2 && given.iter().all(|(held, _)| held != name) {
            given.push((name.into(), Value::None));
        }
    }
    given.sort_by(|a, b| a.0.cmp(&b.0));
    let last = given.len() - 1;
    match r.below(6) {
        0 | 1 => {
            let at = r.below(last);
            given.swap(at, at + 1);
        }
        2 => given.swap(0, last),
        3 => given.reverse(),
        4 => given.rotate_left(1 + r.below(last)),
        _ => {
            for at in (1..=last).rev() {
                given.swap(at, r.below(at + 1));
            }
            // A shuffle may leave all where they were.
            if given.is_sorted_by(|a, b| a.0 < b.0) {
                given.swap(0, last);
            }
        }
    }
}

/// Lists a name once more, with its value or another one.
fn repeat(r: &mut Random, given: &mut Given) {
    if given.is_empty() {
        given.push(("n".into(), Value::Text("x".into())));
    }
    let at = r.below(given.len());
    let mut again = given[at].clone();
    if r.one_in(2) {
        again.1 = match r.below(3) {
            0 => Value::Text(r.pick(USUAL.texts).to_string()),
            1 => Value::None,
            _ => Value::Number(number(r.below(99) as u64, 0)),
        };
    }
    let to = match r.below(4) {
        0 => at,
        1 => at + 1,
        2 => given.len(),
        _ => r.below(given.len() + 1),
    };
    given.insert(to, again);
}

/// Gives a number a scale that is not least; zero one time in three.
fn scale(r: &mut Random, given: &mut Given) {
    if given.is_empty() {
        given.push(("n".into(), Value::None));
    }
    let numbers = given.iter().enumerate();
    let numbers = numbers.filter(|(_, (_, value))| matches!(value, Value::Number(_)));
    let places: Vec<usize> = numbers.map(|(at, _)| at).collect();
    let at = match places.is_empty() {
        true => r.below(given.len()),
        false => *r.pick(&places),
    };
    let held = match &given[at].1 {
        Value::Number(held) if !r.one_in(3) => *held,
        _ => Decimal {
            negative: r.one_in(2),
            ..number(0, 0)
        },
    };
    given[at].1 = Value::Number(longer(r, held));
}

/// The same number with a larger scale, or another one where it has no room.
fn longer(r: &mut Random, held: Decimal) -> Decimal {
    let room = |d: Decimal| d.scale < 14 && d.digits < 100_000_000_000_000;
    let mut longer = match room(held) {
        true => held,
        false => Decimal {
            negative: held.negative,
            ..number(1 + r.below(9) as u64, 1)
        },
    };
    for _ in 0..1 + r.below(4) {
        if room(longer) {
            longer.digits *= 10;
            longer.scale += 1;
        }
    }
    longer
}

fn number(digits: u64, scale: u8) -> Decimal {
    Decimal {
        negative: false,
        digits,
        scale,
    }
}
