//! String literals full of escapes, whose digits are read by arithmetic: formattings
//! and sheets with ample buffers, with ones that just fit or are one byte short, with
//! a digit of an escape changed, and with other damaged bytes.

mod changed;
mod fixed;
mod tally;

pub use fixed::{by_hand, sheets_by_hand};
pub use tally::Escapes;

use crate::near::damaged;
use crate::wanted::Wanted;
use crate::Counts;
use harness::random::Random;
use harness::{escapes, escapes_sheet};

/// Compares everything on a formatting of a seed, or says what differs.
pub fn compare_formatting(seed: u64, counts: &mut Counts) -> Result<(), String> {
    counts.cases += 1;
    let mut random = Random::new(seed ^ 0x5C_0F0D);
    all(&Wanted::message(&escapes(seed))?, &mut random, counts)
}

/// The same on a sheet of a seed.
pub fn compare_sheet(seed: u64, counts: &mut Counts) -> Result<(), String> {
    counts.cases += 1;
    let mut random = Random::new(seed ^ 0x5C5_0F0D);
    all(&Wanted::sheet(&escapes_sheet(seed))?, &mut random, counts)
}

/// With all buffers, and twice with damaged bytes: in three of four cases a digit of
/// an escape is changed, where there is one.
fn all(wanted: &Wanted, random: &mut Random, counts: &mut Counts) -> Result<(), String> {
    wanted.undamaged::<Escapes>(random, counts)?;
    for _ in 0..2 {
        let place = match random.one_in(4) {
            true => None,
            false => changed::place(&wanted.call.store, random),
        };
        match place {
            Some(at) => changed::compare(wanted, at, random, counts)?,
            None => damaged::<Escapes>(&wanted.call, random, counts)?,
        }
    }
    Ok(())
}
