//! Numbers whose dot is left out, as no digits follow it: formattings and sheets in
//! which most numbers have a minimum of 0 fraction digits, with ample buffers, with
//! ones that just fit or are one byte short, and with damaged bytes.

mod fixed;
mod tally;

pub use fixed::{by_hand, sheets_by_hand};
pub use tally::Fractions;

use crate::wanted::Wanted;
use crate::Counts;
use harness::random::Random;
use harness::{fractions, fractions_sheet};

/// Compares everything on a formatting of a seed, or says what differs.
pub fn compare_formatting(seed: u64, counts: &mut Counts) -> Result<(), String> {
    counts.cases += 1;
    let mut random = Random::new(seed ^ 0x3D_0F0D);
    Wanted::message(&fractions(seed))?.all::<Fractions>(&mut random, counts)
}

/// The same on a sheet of a seed.
pub fn compare_sheet(seed: u64, counts: &mut Counts) -> Result<(), String> {
    counts.cases += 1;
    let mut random = Random::new(seed ^ 0x3D5_0F0D);
    Wanted::sheet(&fractions_sheet(seed))?.all::<Fractions>(&mut random, counts)
}
