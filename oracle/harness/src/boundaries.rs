//! Hand-made stores and images at the edges of document 01's rules, and sheet
//! images at those of document 02's.

mod images;
mod parts;
mod sheets;
mod strings;
mod trees;

use crate::vectors::images::Kind;
use images::{arguments, lengths, stores};
use strings::{ids, numbers, texts};
use trees::{counts, depths, tags};

pub use sheets::sheets;
pub use strings::ESCAPES;
pub(crate) use strings::{image_with, store_with, PLACES};

type Bytes = Vec<u8>;
/// With whether document 01 accepts it (checked by a test against the reader).
type Boundary = (Kind, Bytes, bool);

pub fn all() -> Vec<Boundary> {
    let mut out = Vec::new();
    ids(&mut out);
    numbers(&mut out);
    texts(&mut out);
    tags(&mut out);
    depths(&mut out);
    counts(&mut out);
    lengths(&mut out);
    arguments(&mut out);
    stores(&mut out);
    out
}
