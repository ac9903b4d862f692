//! The proved operations themselves, on lent slices, as document 01 has them,
//! and document 02 the sheet and the order of arguments: what each refuses, in
//! which order, and every byte that it leaves. The rest of this crate stands on
//! these six functions.
//!
//! They run on any stack: where little is left of a thread's, on one of their
//! own (see [`stack`](crate::stack)). If that can't be had they refuse with
//! [`Refusal::NO_STACK`], before all else, which changes nothing.

use crate::ffi;
use crate::stack::{with_room, ADDITION, FORMAT};

pub use crate::errors::read_list;
pub use crate::refusals::Refusal;

/// A function that a bundle can hold.
#[derive(Clone, Copy, Debug, PartialEq, Eq)]
pub enum Function {
    /// Fluent's `NUMBER`.
    Number,
}

impl Function {
    /// Its code in the store.
    pub fn code(self) -> u8 {
        match self {
            Self::Number => 1,
        }
    }
}

/// What a formatting carries beside its text and its list. Of a sheet the
/// workspace is the largest of its messages', and the others are the sums over
/// them.
#[derive(Clone, Copy, Debug, Default, PartialEq, Eq)]
pub struct Figures {
    /// Bytes of text.
    pub text: usize,
    /// Errors in the list.
    pub errors: usize,
    /// Placeables begun, 0 to 101 of a message.
    pub begun: usize,
    /// Lookups of an id, by a reference to a message, term or function, that
    /// has no entry of any kind.
    pub unfound: u64,
    /// The highest use of the workspace, in bytes: exactly that of document 01's
    /// definition, 0 where no text went there.
    ///
    /// It is a function of the store, the id, the attribute and the arguments (of
    /// the store and the sheet), and of no buffer. With a text and a list at least
    /// as long, a workspace of just this length, or a longer one, gives the same
    /// text, list and numbers, and a shorter one [`Refusal::SHORT_WORKSPACE`].
    /// Where `unfound` is 0, no list of plain additions and functions changes it,
    /// as it changes nothing else. So it is the workspace to choose, see
    /// [`Buffers`](crate::Buffers#choosing-a-workspace).
    pub work: usize,
}

impl From<ffi::Numbers> for Figures {
    fn from(numbers: ffi::Numbers) -> Self {
        Self {
            text: numbers.written,
            errors: numbers.errors,
            begun: numbers.begun,
            unfound: numbers.unfound,
            work: numbers.used,
        }
    }
}

/// A new bundle at the front of a slice: 0 en, 1 da, 2 ru, 3 cy; 1 isolates.
/// Refusals: 1, 2, 3. A refusal changes nothing.
pub fn new(slice: &mut [u8], locale: u8, isolating: u8) -> Result<(), Refusal> {
    // it uses no more stack than any small function
    Refusal::of(ffi::new(slice, locale, isolating))
}

/// Adds a resource whose entries yield to those of their ids, and gives how
/// many did; the list has an error for each. Refusals: 4, 5, 6, 7. A refusal
/// changes nothing.
pub fn add_resource(slice: &mut [u8], image: &[u8], list: &mut [u8]) -> Result<usize, Refusal> {
    let mut count = 0;
    with_room(ADDITION, || {
        ffi::add_resource(slice, image, list, &mut count)
    })?;
    Ok(count)
}

/// Adds a resource whose entries take their ids. Refusals: 4, 5, 6. A refusal
/// changes nothing.
pub fn add_resource_overriding(slice: &mut [u8], image: &[u8]) -> Result<(), Refusal> {
    with_room(ADDITION, || ffi::add_resource_overriding(slice, image))
}

/// Adds a function, by its code, under an id that has no entry. Refusals: 4,
/// 8, 9, 10, 6. A refusal changes nothing.
pub fn add_function(slice: &mut [u8], id: &[u8], code: u8) -> Result<(), Refusal> {
    with_room(ADDITION, || ffi::add_function(slice, id, code))
}

/// Formats a message's value, or an attribute of it, with an arguments image.
/// Refusals: 4, 8, 11, 12, 13, 19, and 7 for a list under 5 bytes, which change
/// nothing; then 15, 7, 16 and 17, which fill the three buffers with zeros.
///
/// In an arguments image names stand in strictly ascending order of their bytes,
/// where `a` is below `ab`, and a number has the least scale: none above 0 with
/// digits that 10 divides, 0 for zero and minus zero. Any other that is well-formed
/// is refused with 19, [`Refusal::UNORDERED_ARGUMENTS`]; one that is not
/// well-formed is always refused with 13. So two images that are not refused, of
/// the same names and values, are the same bytes.
/// [`FluentArgs::image`](crate::FluentArgs::image) makes them so.
pub fn format(
    store: &[u8],
    id: &[u8],
    attribute: Option<&[u8]>,
    arguments: &[u8],
    text: &mut [u8],
    list: &mut [u8],
    work: &mut [u8],
) -> Result<Figures, Refusal> {
    let mut numbers = ffi::Numbers::default();
    with_room(formatting(list), || {
        ffi::format(
            store,
            id,
            attribute,
            arguments,
            text,
            list,
            work,
            &mut numbers,
        )
    })?;
    Ok(numbers.into())
}

/// Formats the messages of a sheet image, one behind the other: the text is the
/// joining of the texts that they give alone, the list that of their records.
/// Refusals: 4, 18, and 7 for a list under 5 bytes, which change nothing; then,
/// message by message, 11, 12, 13, 19, 15, 7, 16 and 17, which fill the three
/// buffers with zeros. What [`format()`] says of an arguments image holds of every
/// message's.
pub fn format_sheet(
    store: &[u8],
    sheet: &[u8],
    text: &mut [u8],
    list: &mut [u8],
    work: &mut [u8],
) -> Result<Figures, Refusal> {
    let mut numbers = ffi::Numbers::default();
    with_room(formatting(list), || {
        ffi::format_sheet(store, sheet, text, list, work, &mut numbers)
    })?;
    Ok(numbers.into())
}

/// The stack that a formatting with this list can use: with one that is too
/// short even for its header, nothing is formatted.
fn formatting(list: &[u8]) -> usize {
    match list.len() < 5 {
        true => ADDITION,
        false => FORMAT,
    }
}
