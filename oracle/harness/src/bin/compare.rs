//! Compares the model with the Rust on many generated cases:
//! `compare FIRST_SEED COUNT`.
#![forbid(unsafe_code)]

use harness::{expected, generator, large_stack};

fn main() {
    let numbers: Vec<u64> = std::env::args()
        .skip(1)
        .filter_map(|word| word.parse().ok())
        .collect();
    let [first, count] = numbers[..] else {
        eprintln!("usage: compare FIRST_SEED COUNT");
        std::process::exit(2);
    };
    let bad = large_stack(move || run(first, count));
    std::process::exit(i32::from(bad > 0));
}

fn run(first: u64, count: u64) -> usize {
    let (mut bad, mut refused, mut panics, mut cut, mut errors) = (0, 0, 0, 0, 0);
    let (mut bytes, mut workspace, mut seventeen) = (0, 0, 0);
    for seed in first..first + count {
        let case = generator(seed);
        match expected(&case) {
            Err(difference) => {
                bad += 1;
                if bad <= 5 {
                    println!("seed {seed}: {difference}\n{case:?}");
                }
            }
            Ok(e) => {
                bytes += e.store.len();
                match e.answer {
                    Err(17) => seventeen += 1,
                    Err(_) => refused += 1,
                    Ok(done) => {
                        panics += usize::from(!e.from_rust);
                        cut += usize::from(done.begun == 101);
                        errors += usize::from(done.errors > 0);
                        workspace += usize::from(done.highest > 0);
                    }
                }
            }
        }
    }
    println!("{count} cases, {bad} differ");
    println!("refused before the run {refused}, refused with 17 {seventeen}");
    println!("the Rust panics {panics}, cut short {cut}, with errors {errors}, with workspace {workspace}");
    println!("mean store {} bytes", bytes / count.max(1) as usize);
    bad
}
