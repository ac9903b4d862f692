//! Arguments images by hand, in any order and with any scale; and read back.

use weszlagyo::bytes::Writer;
use weszlagyo::{FluentNumber, FluentValue, Refusal};

/// An argument's value as it stands in an image.
#[derive(Clone, Debug, PartialEq, Eq)]
pub enum Value {
    Text(String),
    /// Sign, digits and scale.
    Number(bool, u64, u8),
    None,
}

impl Value {
    /// The value that the crate has for it.
    pub fn given(&self) -> FluentValue<'static> {
        match self {
            Self::Text(text) => text.clone().into(),
            Self::Number(negative, digits, scale) => {
                let number = FluentNumber::new(*negative, *digits, *scale);
                number.expect("at most 15 digits").into()
            }
            Self::None => FluentValue::None,
        }
    }

    /// The same value, a number with its least scale.
    pub fn least(&self) -> Self {
        match self {
            Self::Number(negative, digits, scale) if !is_least(*digits, *scale) => {
                Self::Number(*negative, digits / 10, scale - 1).least()
            }
            other => other.clone(),
        }
    }
}

/// Whether no smaller scale gives the number.
pub fn is_least(digits: u64, scale: u8) -> bool {
    scale == 0 || !digits.is_multiple_of(10)
}

/// The image of these arguments, as they stand.
pub fn written<'a>(arguments: impl IntoIterator<Item = (&'a str, Value)>) -> Vec<u8> {
    let arguments: Vec<(&str, Value)> = arguments.into_iter().collect();
    let mut out = Writer::default();
    let start = out.open();
    out.byte(1);
    out.u16(arguments.len());
    for (name, value) in arguments {
        out.str(name);
        match value {
            Value::Text(text) => {
                out.byte(1);
                out.str(text);
            }
            Value::Number(negative, digits, scale) => {
                out.byte(2);
                out.flag(negative);
                out.u64(digits);
                out.byte(scale);
            }
            Value::None => out.byte(3),
        }
    }
    out.close(start, 4);
    out.finish(Refusal::MALFORMED_ARGUMENTS).expect("they fit")
}

/// Takes so many bytes from the front.
fn take<'a>(rest: &mut &'a [u8], length: usize) -> &'a [u8] {
    let (front, behind) = rest.split_at(length);
    *rest = behind;
    front
}

/// Takes a big-endian number of so many bytes.
fn number(rest: &mut &[u8], length: usize) -> u64 {
    let bytes = take(rest, length);
    bytes.iter().fold(0, |n, byte| n << 8 | u64::from(*byte))
}

fn string(rest: &mut &[u8]) -> String {
    let length = number(rest, 2) as usize;
    let bytes = take(rest, length);
    String::from_utf8(bytes.to_vec()).expect("it is text")
}

/// The arguments of a well-formed image, in their order.
pub fn read(image: &[u8]) -> Vec<(String, Value)> {
    let mut rest = image;
    assert_eq!(number(&mut rest, 4), image.len() as u64);
    assert_eq!(number(&mut rest, 1), 1);
    let count = number(&mut rest, 2);
    let argument = |_| {
        let name = string(&mut rest);
        let value = match number(&mut rest, 1) {
            1 => Value::Text(string(&mut rest)),
            2 => {
                let negative = number(&mut rest, 1) == 1;
                let digits = number(&mut rest, 8);
                Value::Number(negative, digits, number(&mut rest, 1) as u8)
            }
            _ => Value::None,
        };
        (name, value)
    };
    let arguments = (0..count).map(argument).collect();
    assert_eq!(rest, b"", "bytes are left over");
    arguments
}
