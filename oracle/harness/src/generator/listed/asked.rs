//! A message that asks for the first, the last and some other of the names, and
//! for some that are missing: below all, between two, above all.

use crate::ftl;
use crate::random::Random;
use fluent_syntax::ast::Resource;

/// Where a variable stands among the names that are given.
#[derive(Clone, Copy, Debug, PartialEq, Eq)]
pub enum Place {
    First,
    Middle,
    Last,
    Below,
    Between,
    Above,
}

/// All of them.
pub const PLACES: [Place; 6] = [
    Place::First,
    Place::Middle,
    Place::Last,
    Place::Below,
    Place::Between,
    Place::Above,
];

/// The message `a` and its attribute `x`, and the places that its value asks for.
pub(super) fn resource(r: &mut Random, names: &[String]) -> (Resource<String>, Vec<Place>) {
    let mut places: Vec<Place> = Vec::new();
    let mut value = String::new();
    let count = 1 + r.below(7);
    for _ in 0..count {
        let place = *r.pick(&PLACES);
        if let Some(name) = at(r, names, place) {
            places.push(place);
            value += &shown(r, &name);
        }
    }
    let first = at(r, names, Place::First).unwrap_or("n".into());
    let source = format!("a = x{value}\n.x = {{ ${first} }}");
    (ftl::resource(&source), places)
}

/// The variable in some expression.
fn shown(r: &mut Random, name: &str) -> String {
    match r.below(6) {
        0..=2 => format!("{{ ${name} }}"),
        3 => format!("{{ NUMBER(${name}, minimumFractionDigits: 1) }}"),
        4 => format!("{{ ${name} -> [one] 1 [x] x [0] 0 *[o] o }}"),
        _ => format!("{{ {{ ${name} }} }},"),
    }
}

/// The name at a place; none where there is no such one.
fn at(r: &mut Random, names: &[String], place: Place) -> Option<String> {
    let name = match place {
        Place::First => names.first()?.clone(),
        Place::Last => names.last()?.clone(),
        Place::Middle => {
            let between = names.get(1..names.len().checked_sub(1)?)?;
            let at = r.below(between.len().max(1));
            between.get(at)?.clone()
        }
        Place::Below => below(r, names.first()?)?,
        Place::Between => {
            let after = 1 + r.below(names.len().checked_sub(1).filter(|n| *n > 0)?);
            next(&names[after - 1], |name| *name < *names[after])?
        }
        Place::Above => above(r, names.last())?,
    };
    Some(name)
}

/// A name below this one: its front part, or the least name there is.
fn below(r: &mut Random, first: &str) -> Option<String> {
    let shorter = &first[..first.len() - 1];
    match !shorter.is_empty() && r.one_in(2) {
        true => Some(shorter.into()),
        false => Some("A".to_string()).filter(|name| **name < *first),
    }
}

/// A name above this one, or any.
fn above(r: &mut Random, last: Option<&String>) -> Option<String> {
    match last {
        Some(last) if r.one_in(2) => next(last, |_| true),
        _ => Some("zz".to_string()).filter(|name| last.is_none_or(|last| name > last)),
    }
}

/// The next name that there is after this one, if it may be so long.
fn next(name: &str, fits: impl Fn(&str) -> bool) -> Option<String> {
    let next = format!("{name}-");
    Some(next).filter(|next| next.len() <= 255 && fits(next))
}
