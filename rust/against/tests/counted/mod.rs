//! What comparisons count, on a stack that is large enough. Nothing may differ.

use against::Counts;
use harness::large_stack;
use std::ops::Range;

type Compare = fn(u64, &mut Counts) -> Result<(), String>;

/// On the seeds, each with all of these.
pub fn generated(seeds: Range<u64>, compare: &'static [Compare]) -> Counts {
    counted(move |counts| {
        for seed in seeds {
            for compare in compare {
                compare(seed, counts)?;
            }
        }
        Ok(())
    })
}

/// On what is always the same.
pub fn counted(compare: impl FnOnce(&mut Counts) -> Result<(), String> + Send + 'static) -> Counts {
    let counts = large_stack(|| {
        let mut counts = Counts::default();
        compare(&mut counts).map(|()| counts)
    });
    counts.expect("nothing differs")
}
