//! Compares the crate with the oracle on many generated cases, then on
//! generated sheets, then on formattings and sheets by their workspace figures,
//! then on formattings and sheets by their isolation marks, then on formattings and
//! sheets by the order of their arguments, then on formattings and sheets by their
//! fraction digits, then on formattings and sheets by their choices, then on
//! formattings and sheets by their escapes:
//! `differential [COUNT [FIRST_SEED [THREADS [SHEETS [FIGURES [NESTING [ORDER [FRACTIONS [PLURALS [ESCAPES]]]]]]]]]]`,
//! 1,000,000 cases from seed 1 on all processors unless said otherwise, a tenth as
//! many sheets, the figures of a tenth as many formattings and half as many sheets
//! as those, and the marks of as many; as many seeds as those sheets with marks in
//! the input; then the order of arguments in a tenth as many formattings and half
//! as many sheets; then the fraction digits of as many; then the choices by numbers of
//! as many; last, the escapes of as many. It shows how far it is, and ends with 1 if
//! anything differs, a text is unpaired, marks in the input make none unpaired, of 20 or
//! more generated formattings or sheets by their fraction digits none has a number whose
//! dot is left out, in 200 or more by their choices no category comes from the table
//! below 100, from that of 100 and more, or from the conditions, or one of the six does
//! not come at all, or in 20 or more by their escapes one of the 22 digits does not come.
#![forbid(unsafe_code)]

use against::{
    compare, compare_sheet, escapes, figures, fractions, nesting, order, plurals, sheets, Counts,
};
use std::sync::atomic::{AtomicU64, Ordering};
use std::sync::Mutex;
use std::time::{Duration, Instant};

/// The model and the original Rust need it where 100 references stand inside
/// each other, each nested to depth 32.
const STACK: usize = 256 << 20;

/// Seeds that a thread takes at a time.
const BATCH: u64 = 100;

type Compare = fn(u64, &mut Counts) -> Result<(), String>;
type Fixed = fn(&mut Counts) -> Result<(), String>;

/// A part of the run, behind the cases.
struct Part {
    /// The place of the word that says how many seeds there are, and whether it is
    /// half as many.
    word: usize,
    half: bool,
    what: &'static str,
    compare: Compare,
    /// What is always the same and comes first.
    fixed: Option<Fixed>,
}

const fn part(word: usize, what: &'static str, compare: Compare) -> Part {
    Part {
        word,
        half: false,
        what,
        compare,
        fixed: None,
    }
}

impl Part {
    const fn half(self) -> Self {
        Self { half: true, ..self }
    }

    const fn after(self, fixed: Fixed) -> Self {
        Self {
            fixed: Some(fixed),
            ..self
        }
    }
}

#[rustfmt::skip]
const PARTS: [Part; 14] = [
    part(3, "sheets", compare_sheet).after(sheets::fixed::all),
    part(4, "formattings by their figures", figures::compare_formatting).after(figures::by_hand),
    part(4, "sheets by their figures", figures::compare_sheet).half(),
    part(5, "formattings by their marks", nesting::compare_formatting).after(nesting::by_hand),
    part(5, "sheets by their marks", nesting::compare_sheet).half(),
    part(5, "seeds with marks in the input", nesting::compare_marked).half(),
    part(6, "formattings by the order of their arguments", order::compare_formatting).after(order::by_hand),
    part(6, "sheets by the order of their arguments", order::compare_sheet).half(),
    part(7, "formattings by their fraction digits", fractions::compare_formatting).after(fractions::by_hand),
    part(7, "sheets by their fraction digits", fractions::compare_sheet).half().after(fractions::sheets_by_hand),
    part(8, "formattings by their choices", plurals::compare_formatting).after(plurals::by_hand),
    part(8, "sheets by their choices", plurals::compare_sheet).half(),
    part(9, "formattings by their escapes", escapes::compare_formatting).after(escapes::by_hand),
    part(9, "sheets by their escapes", escapes::compare_sheet).half().after(escapes::sheets_by_hand),
];

fn main() {
    let words: Vec<u64> = std::env::args()
        .skip(1)
        .map(|word| word.parse().unwrap_or_else(|_| usage()))
        .collect();
    if words.len() > 10 {
        usage();
    }
    let word = |at: usize, usual: u64| words.get(at).copied().unwrap_or(usual);
    let processors = std::thread::available_parallelism().map_or(1, |n| n.get() as u64);
    let cases = Run {
        what: "cases",
        compare,
        count: word(0, 1_000_000),
        first: word(1, 1),
        threads: word(2, processors).max(1),
    };
    let mut same = cases.run(Counts::default(), 0);
    for part in PARTS {
        let count = word(part.word, cases.count.div_ceil(10));
        let count = count.div_ceil(if part.half { 2 } else { 1 });
        same &= count == 0 || cases.of(&part, count).with_fixed(part.fixed);
    }
    std::process::exit(i32::from(!same));
}

/// Seeds to be compared.
struct Run {
    what: &'static str,
    compare: Compare,
    count: u64,
    first: u64,
    threads: u64,
}

impl Run {
    /// As many seeds of a part.
    fn of(&self, part: &Part, count: u64) -> Self {
        Self {
            what: part.what,
            compare: part.compare,
            count,
            ..*self
        }
    }

    /// Compares what is always the same, if there is any, then the seeds.
    fn with_fixed(&self, fixed: Option<Fixed>) -> bool {
        let Some(fixed) = fixed else {
            return self.run(Counts::default(), 0);
        };
        let (counts, answer) = std::thread::scope(|scope| {
            let fixed = || {
                let mut counts = Counts::default();
                let answer = fixed(&mut counts);
                (counts, answer)
            };
            let thread = std::thread::Builder::new().stack_size(STACK);
            let thread = thread.spawn_scoped(scope, fixed).expect("a thread");
            thread.join().expect("it ends well")
        });
        if let Err(difference) = &answer {
            println!("hand-made {}: {difference}", self.what);
        }
        self.run(counts, u64::from(answer.is_err()))
    }

    /// Compares all of them, says what was compared, with what was before, and
    /// whether nothing differs.
    fn run(&self, before: Counts, differed: u64) -> bool {
        let next = AtomicU64::new(0);
        let done = AtomicU64::new(0);
        let generated = Mutex::new(Counts::default());
        let differ = Mutex::new(differed);
        let start = Instant::now();
        std::thread::scope(|scope| {
            for _ in 0..self.threads {
                std::thread::Builder::new()
                    .stack_size(STACK)
                    .spawn_scoped(scope, || {
                        while let Some(counts) = self.batch(&next, &differ) {
                            done.fetch_add(counts.cases, Ordering::Relaxed);
                            generated.lock().expect("no thread failed").add(&counts);
                        }
                    })
                    .expect("a thread");
            }
            self.watch(&next, &done, start);
        });
        let generated = generated.into_inner().expect("no thread failed");
        let mut total = before;
        total.add(&generated);
        let differ = differ.into_inner().expect("no thread failed");
        self.say(&total, start);
        print!("{}{}", total.nesting, total.order);
        print!("{}{}{}", total.fractions, total.plurals, total.escapes);
        println!("{differ} differ");
        differ == 0 && total.cases == self.count && tells(&total, &generated)
    }

    /// Compares the next seeds, if there are any.
    fn batch(&self, next: &AtomicU64, differ: &Mutex<u64>) -> Option<Counts> {
        let from = next.fetch_add(BATCH, Ordering::Relaxed);
        if from >= self.count {
            return None;
        }
        let mut counts = Counts::default();
        for at in from..(from + BATCH).min(self.count) {
            let seed = self.first + at;
            if let Err(difference) = (self.compare)(seed, &mut counts) {
                let mut all = differ.lock().expect("no thread failed");
                if *all < 10 {
                    println!("{} seed {seed}: {difference}", self.what);
                }
                *all += 1;
            }
        }
        Some(counts)
    }

    /// Shows how far it is, until it is done.
    fn watch(&self, next: &AtomicU64, done: &AtomicU64, start: Instant) {
        let (count, what) = (self.count, self.what);
        let mut shown = Instant::now();
        while done.load(Ordering::Relaxed) < count {
            std::thread::sleep(Duration::from_millis(50));
            if shown.elapsed() >= Duration::from_secs(10) {
                shown = Instant::now();
                let done = done.load(Ordering::Relaxed);
                let seconds = start.elapsed().as_secs_f64();
                let left = (count - done) as f64 * seconds / done.max(1) as f64;
                eprintln!("{done} of {count} {what}, {seconds:.0} s, about {left:.0} s left");
            }
            // a thread that panicked stops counting
            if next.load(Ordering::Relaxed) >= count + self.threads * BATCH {
                break;
            }
        }
    }

    fn say(&self, total: &Counts, start: Instant) {
        let stores = match total.stores {
            0 => String::new(),
            made => format!("{made} stores made, "),
        };
        println!(
            "{} {} from seed {}, {} calls compared, {} with damaged bytes, {stores}{:.0} s",
            total.cases,
            self.what,
            self.first,
            total.calls,
            total.damaged,
            start.elapsed().as_secs_f64()
        );
        let answers = total.answers.iter().enumerate().filter(|(_, n)| **n > 0);
        let words: Vec<String> = answers
            .map(|(answer, n)| match answer {
                0 => format!("done {n}"),
                refusal => format!("{refusal}: {n}"),
            })
            .collect();
        println!("answers: {}", words.join(", "));
    }
}

/// Whether everything came that has to; says what did not. The hand-made ones always
/// have some, so but for marks the generated ones count.
fn tells(total: &Counts, generated: &Counts) -> bool {
    let all = [
        (
            total.nesting.noticed(),
            "marks in the input, and no text is unpaired",
        ),
        (
            generated.fractions.told(),
            "no generated number has a dot left out",
        ),
        (
            generated.plurals.told(),
            "a way to a category, or a category, is missing in the generated ones",
        ),
        (
            generated.escapes.told(),
            "one of the 22 digits is missing in the generated ones",
        ),
    ];
    for (_, missing) in all.iter().filter(|(came, _)| !came) {
        println!("{missing}");
    }
    all.iter().all(|(came, _)| *came)
}

fn usage() -> ! {
    eprintln!(
        "usage: differential [COUNT [FIRST_SEED [THREADS [SHEETS [FIGURES [NESTING [ORDER [FRACTIONS [PLURALS [ESCAPES]]]]]]]]]]"
    );
    std::process::exit(2)
}
