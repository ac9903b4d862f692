//! Refusals: the numbers of documents 01 and 02, and what each means in words.
//! This is the one table of them.

use std::error::Error;
use std::fmt;

/// Why an operation was refused, by the number of documents 01 and 02; 255 is
/// this crate's own.
#[derive(Clone, Copy, Debug, PartialEq, Eq, Hash)]
pub struct Refusal(u8);

macro_rules! refusals {
    ($($name:ident = $number:literal: $words:literal $(, $more:literal)?;)+) => {
        impl Refusal {
            $(
                #[doc = concat!($number, ": ", $words, "." $(, " ", $more)?)]
                pub const $name: Self = Self($number);
            )+

            /// All of them, in the order of their numbers.
            pub const ALL: &'static [Self] = &[$(Self::$name),+];

            /// What it means, in words.
            pub fn meaning(self) -> &'static str {
                match self.0 {
                    $($number => $words,)+
                    _ => "there is no such refusal",
                }
            }
        }
    };
}

refusals! {
    SHORT_SLICE = 1: "the slice has under 9 bytes";
    NO_LOCALE = 2: "the locale is above 3";
    NO_FLAG = 3: "the isolating byte is above 1";
    MALFORMED_STORE = 4: "the store is malformed";
    MALFORMED_RESOURCE = 5: "the resource image is malformed";
    FULL_STORE = 6: "the store has no room for the item",
        "The slice is too short, the store would pass 1,048,576 bytes, or it has 256 items.";
    SHORT_LIST = 7: "the buffer of the error list is too short";
    NO_ID = 8: "not an Id",
        "An Id is a letter followed by letters, digits, `-` and `_`, 1 to 255 in all.";
    NO_CODE = 9: "the code of the function is not 1";
    HELD_ID = 10: "the id of the function has an entry";
    NO_MESSAGE = 11: "there is no such message";
    NO_PATTERN = 12: "the message has no such value or attribute";
    MALFORMED_ARGUMENTS = 13: "the arguments are malformed",
        "A name is no Id, or they are too long.";
    SHORT_TEXT = 15: "the text passes its buffer";
    SHORT_WORKSPACE = 16: "the workspace is too short";
    MANY_DIGITS = 17: "a minimumFractionDigits is above 19";
    MALFORMED_SHEET = 18: "the sheet image is malformed",
        "An id is no Id, an arguments image has under 7 or over 65,536 bytes, or it is too long.";
    UNORDERED_ARGUMENTS = 19: "the arguments are not in order",
        "The names do not ascend strictly, by their bytes, or the scale of a number is not the least.";
    NO_STACK = 255: "there is no memory for a stack",
        "Little is left of the thread's own, and the system gave none. Nothing was changed.";
}

impl Refusal {
    /// The number.
    pub fn number(self) -> u8 {
        self.0
    }

    /// What an operation answered: 0, or the number of a refusal.
    pub(crate) fn of(answer: u8) -> Result<(), Self> {
        match answer {
            0 => Ok(()),
            number => Err(Self(number)),
        }
    }
}

impl fmt::Display for Refusal {
    fn fmt(&self, f: &mut fmt::Formatter<'_>) -> fmt::Result {
        write!(f, "refusal {}: {}", self.0, self.meaning())
    }
}

impl Error for Refusal {}

#[cfg(test)]
mod tests {
    use super::Refusal;

    #[test]
    fn all_are_in_order_and_have_words() {
        let numbers: Vec<u8> = Refusal::ALL.iter().map(|r| r.number()).collect();
        let expected: Vec<u8> = (1..=19).filter(|n| *n != 14).chain([255]).collect();
        assert_eq!(numbers, expected);
        assert_eq!(Refusal(14).meaning(), "there is no such refusal");
        assert_eq!(
            Refusal::NO_MESSAGE.to_string(),
            "refusal 11: there is no such message"
        );
    }
}
