//! figures.vec and figure_additions.vec belong together: a formatting or sheet
//! stands again with the slice that the additions leave of its first one.
#![forbid(unsafe_code)]

use harness::{large_stack, vectors};
use std::collections::{HashMap, HashSet};

/// The cases of a file.
fn cases(name: &str) -> Vec<Vec<u8>> {
    let path = format!("{}/../../crates/{name}", env!("CARGO_MANIFEST_DIR"));
    let bytes = std::fs::read(&path).unwrap_or_else(|e| panic!("{path}: {e}"));
    let mut rest = &bytes[9..];
    let mut all = Vec::new();
    while !rest.is_empty() {
        all.push(blob(&mut rest).to_vec());
    }
    all
}

fn take<'a>(rest: &mut &'a [u8], length: usize) -> &'a [u8] {
    let (taken, left) = rest.split_at(length);
    *rest = left;
    taken
}

fn number(rest: &mut &[u8], bytes: usize) -> usize {
    let bytes = take(rest, bytes);
    bytes.iter().fold(0, |n, b| n << 8 | usize::from(*b))
}

fn blob<'a>(rest: &mut &'a [u8]) -> &'a [u8] {
    let length = number(rest, 4);
    take(rest, length)
}

fn str<'a>(rest: &mut &'a [u8]) -> &'a [u8] {
    let length = number(rest, 2);
    take(rest, length)
}

/// From each slice to those that an accepted addition leaves.
fn accepted() -> HashMap<Vec<u8>, HashSet<Vec<u8>>> {
    let mut steps: HashMap<Vec<u8>, HashSet<Vec<u8>>> = HashMap::new();
    for case in cases("replay/data/figure_additions.vec") {
        let mut rest = &case[1..];
        if case[0] == 31 {
            assert_eq!(number(&mut rest, 1), 1, "it is plain");
        }
        let before = blob(&mut rest);
        match case[0] {
            31 => drop((blob(&mut rest), number(&mut rest, 4))),
            32 => drop((str(&mut rest), number(&mut rest, 1))),
            other => panic!("operation {other}"),
        }
        let accepted = number(&mut rest, 1) == 0;
        if case[0] == 31 {
            number(&mut rest, 2);
        }
        let after = blob(&mut rest);
        assert_eq!(accepted, before != after, "only an accepted one changes it");
        if accepted {
            steps.entry(before.into()).or_default().insert(after.into());
        }
    }
    steps
}

/// All slices that additions lead to from one.
fn reached(steps: &HashMap<Vec<u8>, HashSet<Vec<u8>>>, from: &[u8]) -> HashSet<Vec<u8>> {
    let mut all = HashSet::from([from.to_vec()]);
    let mut next = vec![from.to_vec()];
    while let Some(slice) = next.pop() {
        for after in steps.get(&slice).into_iter().flatten() {
            if all.insert(after.clone()) {
                next.push(after.clone());
            }
        }
    }
    all
}

/// What a case asks for beside its store, the lengths that it lends, and what
/// is answered.
struct Asked {
    store: Vec<u8>,
    what: Vec<u8>,
    workspace: usize,
    answer: Vec<u8>,
}

fn asked(case: &[u8]) -> Asked {
    let mut rest = &case[1..];
    let store = blob(&mut rest).to_vec();
    let start = rest;
    match case[0] {
        41 => {
            str(&mut rest);
            number(&mut rest, 1);
            str(&mut rest);
            blob(&mut rest);
        }
        50 => drop(blob(&mut rest)),
        other => panic!("operation {other}"),
    }
    let what = start[..start.len() - rest.len()].to_vec();
    take(&mut rest, 8);
    Asked {
        store,
        what,
        workspace: number(&mut rest, 4),
        answer: rest.to_vec(),
    }
}

/// Whether a slice holds the items of another one of its length, and more.
fn longer(first: &[u8], later: &[u8]) -> bool {
    let used = |mut slice: &[u8]| number(&mut slice, 4);
    let (before, after) = (used(first), used(later));
    first.len() == later.len() && before < after && first[9..before] == later[9..before]
}

#[test]
fn additions_lead_from_store_to_store() {
    let steps = accepted();
    let all: Vec<_> = cases("replay_formats/data/figures.vec")
        .iter()
        .map(|case| asked(case))
        .collect();
    let (mut again, mut short) = (0, 0);
    for pair in all.windows(2) {
        let [first, later] = pair else { unreachable!() };
        if first.what != later.what || !longer(&first.store, &later.store) {
            continue;
        }
        assert!(reached(&steps, &first.store).contains(&later.store));
        match (first.answer[0], later.answer[0]) {
            (0, 0) => assert_eq!(first.answer, later.answer),
            (16, 0) => assert!(first.workspace < later.workspace),
            (0, 16) => assert!(first.workspace > later.workspace),
            other => assert_eq!(other, (16, 16)),
        }
        again += 1;
        short += usize::from(later.answer[0] == 16);
    }
    assert!(again > 200 && short > 50, "{again}, {short}");
}

/// Making the files compares the model with the Rust before and after the
/// additions, and holds every answer to what the figure promises.
#[test]
fn other_seeds() {
    let counts = large_stack(|| {
        let made = (100..102).map(|seed| vectors::figures::make(seed, 1200));
        made.map(|(figures, additions)| (figures.count(), additions.count()))
            .collect::<Vec<_>>()
    });
    for (figures, additions) in counts {
        assert!(figures > 800 && additions > 600, "{figures}, {additions}");
    }
}
