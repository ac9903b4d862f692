//! Document 02's Card 2: "names stand in strictly ascending byte order", and "a
//! number's scale is the smallest that gives it." An image is judged by document
//! 01's layout first, in full and with its names in any order, and then by these.

use super::number::Decimal;
use super::reader::{self, Given, Id};

/// The names and values of an arguments image; else refusal 13, or then 19.
pub fn accepted(image: &[u8]) -> Result<Vec<(Id, Given)>, u8> {
    let given = reader::arguments(image).ok_or(13)?;
    match ascending(&given) && given.iter().all(|(_, value)| has_least_scale(value)) {
        true => Ok(given),
        false => Err(19),
    }
}

/// Each name is less than the one behind it; equal ones are not.
fn ascending(given: &[(Id, Given)]) -> bool {
    given.windows(2).all(|pair| less(&pair[0].0, &pair[1].0))
}

/// By the first byte that differs; without one a proper prefix is less. The
/// lengths that stand before names do not count.
pub fn less(a: &[u8], b: &[u8]) -> bool {
    match a.iter().zip(b).find(|(x, y)| x != y) {
        Some((x, y)) => x < y,
        None => a.len() < b.len(),
    }
}

/// Not "a scale above 0 with digits divisible by 10", whatever the sign; 0 is
/// divisible by 10.
fn has_least_scale(value: &Given) -> bool {
    match value {
        Given::Number(Decimal { digits, scale, .. }) => *scale == 0 || digits % 10 != 0,
        Given::Text(_) | Given::None => true,
    }
}
