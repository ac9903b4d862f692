//! Arguments' values.

use std::borrow::Cow;
use std::error::Error;
use std::fmt;
use std::str::FromStr;

/// A number: decimal digits with a sign and a scale.
///
/// fluent-bundle holds a double; here a number is the decimal that is meant,
/// of at most 15 digits. Zero has a sign.
///
/// A number has one form, that of the least scale, as an arguments image asks
/// for it: 1.50 is 1.5, 0.00 is 0, and -0.00 is -0. Nothing is lost by that: an
/// argument has no options, so its text is the shortest decimal whatever scale
/// was given, and the choice of a variant does not see the scale either.
#[derive(Clone, Copy, Debug, PartialEq, Eq)]
pub struct FluentNumber {
    negative: bool,
    digits: u64,
    scale: u8,
}

/// 10^15: the digits of a number are below it.
const TOO_MANY: u64 = 1_000_000_000_000_000;

const MAX_SCALE: u8 = 14;

impl FluentNumber {
    /// The digits over 10^scale, below zero where `negative`; there are at
    /// most 15 digits, and the scale is at most 14. Zeros at the end of the
    /// fraction are dropped.
    ///
    /// ```
    /// use weszlagyo::FluentNumber;
    ///
    /// let number = FluentNumber::new(false, 150, 2)?;
    /// assert_eq!((number.digits(), number.scale()), (15, 1));
    /// assert_eq!(Ok(number), "1.5".parse());
    /// // zero and minus zero are two values
    /// assert_ne!(FluentNumber::new(true, 0, 3)?, FluentNumber::new(false, 0, 3)?);
    /// # Ok::<(), weszlagyo::NotADecimal>(())
    /// ```
    pub fn new(negative: bool, digits: u64, scale: u8) -> Result<Self, NotADecimal> {
        if digits >= TOO_MANY || scale > MAX_SCALE {
            return Err(NotADecimal);
        }
        let (digits, scale) = least_scale(digits, scale);
        Ok(Self {
            negative,
            digits,
            scale,
        })
    }

    /// Whether the sign is minus; zero can have it.
    pub fn is_negative(self) -> bool {
        self.negative
    }

    /// The digits, as a whole number: by 10 it can be divided only where the
    /// scale is 0.
    pub fn digits(self) -> u64 {
        self.digits
    }

    /// How many of the digits stand behind the dot, no zero at their end.
    pub fn scale(self) -> u8 {
        self.scale
    }

    fn of(negative: bool, magnitude: u128) -> Result<Self, NotADecimal> {
        Self::new(
            negative,
            u64::try_from(magnitude).map_err(|_| NotADecimal)?,
            0,
        )
    }
}

/// The same number without zeros at the end of its fraction.
fn least_scale(mut digits: u64, mut scale: u8) -> (u64, u8) {
    while scale > 0 && digits.is_multiple_of(10) {
        digits /= 10;
        scale -= 1;
    }
    (digits, scale)
}

/// The number is not a decimal of at most 15 digits, 14 of them behind the
/// dot.
#[derive(Clone, Copy, Debug, PartialEq, Eq)]
pub struct NotADecimal;

impl fmt::Display for NotADecimal {
    fn fmt(&self, f: &mut fmt::Formatter<'_>) -> fmt::Result {
        f.write_str("not a decimal of at most 15 digits")
    }
}

impl Error for NotADecimal {}

impl FromStr for FluentNumber {
    type Err = NotADecimal;

    /// Reads an optional `-`, digits, and perhaps a dot and digits. Zeros at
    /// the end of the fraction are not kept.
    fn from_str(text: &str) -> Result<Self, NotADecimal> {
        let unsigned = text.strip_prefix('-');
        let negative = unsigned.is_some();
        let unsigned = unsigned.unwrap_or(text);
        let (whole, fraction) = unsigned.split_once('.').unwrap_or((unsigned, "0"));
        let digits = |part: &str| !part.is_empty() && part.bytes().all(|b| b.is_ascii_digit());
        if !digits(whole) || !digits(fraction) {
            return Err(NotADecimal);
        }
        let fraction = fraction.trim_end_matches('0');
        let scale = u8::try_from(fraction.len()).map_err(|_| NotADecimal)?;
        let whole = match whole.trim_start_matches('0') {
            "" => "0",
            whole => whole,
        };
        let value = format!("{whole}{fraction}").parse();
        Self::new(negative, value.map_err(|_| NotADecimal)?, scale)
    }
}

impl TryFrom<f64> for FluentNumber {
    type Error = NotADecimal;

    /// The shortest decimal that stands for the double.
    fn try_from(value: f64) -> Result<Self, NotADecimal> {
        value.to_string().parse()
    }
}

/// An argument's value.
///
/// fluent-bundle's `Custom` and `Error` are not among them: no argument can be
/// either.
#[derive(Clone, Debug, PartialEq)]
pub enum FluentValue<'source> {
    /// Text.
    String(Cow<'source, str>),
    /// A number.
    Number(FluentNumber),
    /// Nothing, which is written as an empty text.
    None,
}

impl<'source> FluentValue<'source> {
    /// A number if the text is one, else the text.
    pub fn try_number(value: &'source str) -> Self {
        match value.parse() {
            Ok(number) => Self::Number(number),
            Err(NotADecimal) => value.into(),
        }
    }

    /// The same value, with its own text.
    pub fn into_owned<'a>(&self) -> FluentValue<'a> {
        match self {
            Self::String(text) => FluentValue::String(Cow::Owned(text.to_string())),
            Self::Number(number) => FluentValue::Number(*number),
            Self::None => FluentValue::None,
        }
    }
}

impl From<String> for FluentValue<'_> {
    fn from(text: String) -> Self {
        Self::String(text.into())
    }
}

impl<'source> From<&'source String> for FluentValue<'source> {
    fn from(text: &'source String) -> Self {
        Self::String(text.into())
    }
}

impl<'source> From<&'source str> for FluentValue<'source> {
    fn from(text: &'source str) -> Self {
        Self::String(text.into())
    }
}

impl<'source> From<Cow<'source, str>> for FluentValue<'source> {
    fn from(text: Cow<'source, str>) -> Self {
        Self::String(text)
    }
}

impl From<FluentNumber> for FluentValue<'_> {
    fn from(number: FluentNumber) -> Self {
        Self::Number(number)
    }
}

impl<'source, T> From<Option<T>> for FluentValue<'source>
where
    T: Into<FluentValue<'source>>,
{
    fn from(value: Option<T>) -> Self {
        value.map_or(Self::None, Into::into)
    }
}

/// Integers of up to 32 bits always have at most 15 digits.
macro_rules! from_small {
    ($($number:ty)+) => {
        $(
            impl From<$number> for FluentNumber {
                fn from(n: $number) -> Self {
                    let n = i64::from(n);
                    Self {
                        negative: n < 0,
                        digits: n.unsigned_abs(),
                        scale: 0,
                    }
                }
            }

            impl From<$number> for FluentValue<'_> {
                fn from(n: $number) -> Self {
                    Self::Number(n.into())
                }
            }

            impl From<&$number> for FluentValue<'_> {
                fn from(n: &$number) -> Self {
                    Self::from(*n)
                }
            }
        )+
    };
}

/// Larger ones may have more.
macro_rules! try_from_large {
    ($($number:ty)+) => {
        $(
            impl TryFrom<$number> for FluentNumber {
                type Error = NotADecimal;

                #[allow(unused_comparisons)]
                fn try_from(n: $number) -> Result<Self, NotADecimal> {
                    Self::of(n < 0, n.abs_diff(0).into_u128())
                }
            }
        )+
    };
}

/// `From` has no conversion of `usize`.
trait IntoU128 {
    fn into_u128(self) -> u128;
}

macro_rules! into_u128 {
    ($($number:ty)+) => {
        $(
            impl IntoU128 for $number {
                fn into_u128(self) -> u128 {
                    self as u128
                }
            }
        )+
    };
}

from_small!(i8 i16 i32 u8 u16 u32);
try_from_large!(i64 i128 isize u64 u128 usize);
into_u128!(u64 u128 usize);
