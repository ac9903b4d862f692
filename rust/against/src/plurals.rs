//! Choices by numbers, whose categories come from a table or from the conditions:
//! formattings and sheets full of them, with ample buffers, with ones that just fit or
//! are one byte short, and with damaged bytes.

mod tally;

pub use tally::Plurals;

use crate::wanted::Wanted;
use crate::Counts;
use harness::plurals::formattings;
use harness::random::Random;
use harness::{plurals, plurals_sheet};

/// Compares everything on a formatting of a seed, or says what differs.
pub fn compare_formatting(seed: u64, counts: &mut Counts) -> Result<(), String> {
    counts.cases += 1;
    let mut random = Random::new(seed ^ 0x4C_0F0D);
    Wanted::message(&plurals(seed))?.all::<Plurals>(&mut random, counts)
}

/// The same on a sheet of a seed.
pub fn compare_sheet(seed: u64, counts: &mut Counts) -> Result<(), String> {
    counts.cases += 1;
    let mut random = Random::new(seed ^ 0x4C5_0F0D);
    Wanted::sheet(&plurals_sheet(seed))?.all::<Plurals>(&mut random, counts)
}

/// The numbers whose categories were worked out by hand, each chosen by in a message.
pub fn by_hand(counts: &mut Counts) -> Result<(), String> {
    let mut random = Random::new(0x4C);
    for point in formattings() {
        let wanted = Wanted::message(&point.case)?;
        wanted.is_by_hand(Ok((point.text, 0)))?;
        wanted.all::<Plurals>(&mut random, counts)?;
    }
    Ok(())
}
