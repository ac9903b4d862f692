//! The fields of a sighting, and their arguments image.

use super::options::Options;
use crate::failure::{both, Failure};
use weszlagyo::bytes::Writer;
use weszlagyo::{FluentNumber, Refusal};

/// A field: its name, what it is unless given, and whether it is a number.
pub struct Field {
    name: &'static str,
    usual: &'static str,
    is_number: bool,
}

const fn text(name: &'static str, usual: &'static str) -> Field {
    Field {
        name,
        usual,
        is_number: false,
    }
}

const fn number(name: &'static str, usual: &'static str) -> Field {
    Field {
        name,
        usual,
        is_number: true,
    }
}

/// All of them, in the order of the form; an image has its names in ascending
/// order.
pub const FIELDS: [Field; 6] = [
    text("species", "porpoise"),
    number("count", "3"),
    number("calves", "1"),
    number("distance", "400"),
    number("leg", "7"),
    text("observer", "Anna Berg"),
];

impl Field {
    /// Where the field of a name stands among them.
    pub fn named(name: &[u8]) -> Option<usize> {
        FIELDS
            .iter()
            .position(|field| field.name.as_bytes() == name)
    }
}

/// A number as it is written: an optional `-`, digits, and perhaps a dot and
/// digits; at most 15 digits in all, zeros at the end of the fraction among
/// them, though these are not kept.
fn literal(text: &[u8]) -> Option<FluentNumber> {
    let unsigned = text.strip_prefix(b"-");
    let negative = unsigned.is_some();
    let mut parts = unsigned.unwrap_or(text).splitn(2, |b| *b == b'.');
    let (whole, fraction) = (parts.next()?, parts.next());
    let is_digits = |part: &[u8]| !part.is_empty() && part.iter().all(u8::is_ascii_digit);
    if !is_digits(whole) || !fraction.is_none_or(is_digits) {
        return None;
    }
    let digits = [whole, fraction.unwrap_or_default()].concat();
    if digits.len() > 15 {
        return None;
    }
    let value = digits.iter().fold(0, |n, b| n * 10 + u64::from(b - b'0'));
    let scale = fraction.unwrap_or_default().len();
    FluentNumber::new(negative, value, u8::try_from(scale).ok()?).ok()
}

/// Says that a field has to be a number, if it has and is none.
fn check(field: &Field, value: &[u8]) -> Result<(), Failure> {
    if !field.is_number || literal(value).is_some() {
        return Ok(());
    }
    Err(Failure::line(&[
        b"not a number of at most 15 digits, as 3, -3 or 3.5: ",
        value,
    ]))
}

/// The fields that are not left out, with their values, in the order of the form.
fn filled<'a>(options: &Options<'a>) -> Vec<(&'static Field, &'a [u8])> {
    FIELDS
        .iter()
        .enumerate()
        .filter(|(at, _)| !options.left_out[*at])
        .map(|(at, field)| (field, options.given[at].unwrap_or(field.usual.as_bytes())))
        .collect()
}

/// The arguments image of a sighting: names ascending, numbers with the least
/// scale, so that equal sightings have equal images. What is wrong is said of
/// every field.
pub fn image(options: &Options) -> Result<Vec<u8>, Failure> {
    let mut fields = filled(options);
    fields
        .iter()
        .map(|(field, value)| check(field, value))
        .fold(Ok(()), both)?;
    fields.sort_by_key(|(field, _)| field.name);
    // by hand, and not by `FluentArgs`: a value may be no text, which is refused
    // when it is formatted
    let mut out = Writer::default();
    let start = out.open();
    out.byte(1);
    out.u16(fields.len());
    for (field, value) in fields {
        out.str(field.name);
        match literal(value).filter(|_| field.is_number) {
            Some(number) => {
                out.byte(2);
                out.flag(number.is_negative());
                out.u64(number.digits());
                out.byte(number.scale());
            }
            None => {
                out.byte(1);
                out.str(value);
            }
        }
    }
    out.close(start, 4);
    Ok(out.finish(Refusal::MALFORMED_ARGUMENTS)?)
}

#[cfg(test)]
mod tests {
    use super::super::languages::USUAL;
    use super::{image, literal, Options};

    #[test]
    fn the_usual_sighting_is_that_of_the_rattle_program() {
        assert_eq!(image(&Options::default()).as_deref(), Ok(USUAL));
    }

    /// The number, by sign, digits and scale.
    fn read(text: &str) -> Option<(bool, u64, u8)> {
        let n = literal(text.as_bytes())?;
        Some((n.is_negative(), n.digits(), n.scale()))
    }

    #[test]
    fn numbers_have_the_least_scale() {
        assert_eq!(read("3"), Some((false, 3, 0)));
        assert_eq!(read("30"), Some((false, 30, 0)));
        assert_eq!(read("-3.50"), Some((true, 35, 1)));
        assert_eq!(read("30.00"), Some((false, 30, 0)));
        assert_eq!(read("0.0"), Some((false, 0, 0)));
        assert_eq!(read("-0.00"), Some((true, 0, 0)));
        assert_eq!(read("000000000000003"), Some((false, 3, 0)));
        assert_eq!(read("0.00000000000001"), Some((false, 1, 14)));
    }

    #[test]
    fn what_is_no_number() {
        let wrong = ["", "-", ".", "3.", ".5", "--3", "3-", "+3", "1.2.3", "1e3"];
        for text in wrong.into_iter().chain(["0000000000000003"]) {
            assert_eq!(read(text), None, "{text}");
        }
        // zeros at the end are digits too
        assert_eq!(read("3.000000000000000"), None);
    }

    /// The names of an image, read from its bytes.
    fn names(image: &[u8]) -> Vec<&[u8]> {
        let count = usize::from(image[6]);
        let mut rest = &image[7..];
        let mut names = Vec::new();
        for _ in 0..count {
            let (name, value) = rest[2..].split_at(usize::from(rest[1]));
            names.push(name);
            rest = match value[0] {
                1 => &value[3 + usize::from(value[2])..],
                _ => &value[11..],
            };
        }
        assert_eq!(rest, b"");
        names
    }

    #[test]
    fn names_ascend_whatever_is_left_out() {
        for left_out in 0..1_u32 << 6 {
            let mut options = Options::default();
            for (at, is_left_out) in options.left_out.iter_mut().enumerate() {
                *is_left_out = left_out >> at & 1 == 1;
            }
            let image = image(&options).expect("it fits");
            let names = names(&image);
            assert!(names.windows(2).all(|two| two[0] < two[1]), "{names:?}");
            assert_eq!(names.len(), 6 - left_out.count_ones() as usize);
        }
    }
}
