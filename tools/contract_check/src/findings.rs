//! What is wanting in the contracts of the functions that another crate can call.

use crate::code::{read_crate, Code, File, Function};
use crate::specs::{Scope, Specs};
use crate::text::{even, groups, names, split, unwrapped, words};
use std::collections::{BTreeMap, BTreeSet};
use std::path::Path;

pub struct Finding {
    pub path: String,
    pub place: String,
    pub what: String,
}

/// The findings, and how many functions were looked at.
pub struct Report {
    pub findings: Vec<Finding>,
    pub public: usize,
}

/// The names of the crates, by crates.txt.
fn crates(root: &Path) -> Vec<String> {
    let text = std::fs::read_to_string(root.join("crates.txt")).unwrap_or_default();
    // a static library has that word behind its name
    let lines = text.lines().filter_map(|l| {
        let (name, _) = l.split('#').next()?.split_once(':')?;
        name.split_whitespace().next().map(str::to_string)
    });
    lines.collect()
}

/// The ghost names of a file of code.
fn scope_of(file: &File) -> Scope {
    let mut scope = Scope::default();
    file.text
        .split(';')
        .filter_map(|item| item.rfind("ghost use ").map(|i| &item[i..]))
        .for_each(|item| scope.take(&even(item)));
    scope
}

/// The parts of what is said that tell more than a bound.
fn told(body: &str) -> Vec<&str> {
    let is_bound = |p: &&str| {
        p.split_whitespace()
            .any(|w| ["≤", "<", "≥", ">"].contains(&w))
    };
    split(unwrapped(body), '×')
        .into_iter()
        .filter(|p| !is_bound(p))
        .collect()
}

/// Is a value told, and not its length alone?
fn tells(clauses: &[String], path: &str) -> bool {
    clauses
        .iter()
        .any(|body| told(body).iter().any(|part| names(part, path)))
}

/// Has a text an arrow behind anything but a choice of numbers, bytes or flags? `(n : ℕ) → …` asks nothing: it says the rest of every n.
fn has_premise(body: &str) -> bool {
    let parts = split(unwrapped(body), '→');
    let (end, before) = parts.split_last().expect("a text has a part");
    let chooses = |group: &&str| {
        group
            .rsplit_once(" : ")
            .is_some_and(|(_, kind)| ["ℕ", "List ℕ", "Bool"].contains(&kind))
    };
    let asks = |part: &&str| groups(part).is_empty() || !groups(part).iter().all(|g| chooses(g));
    before.iter().any(asks) || end.contains('→')
}

fn wanting(f: &Function, scope: &Scope, specs: &Specs) -> Vec<String> {
    let mut found = Vec::new();
    let clauses: Vec<String> = f.ensures.iter().map(|e| even(e)).collect();
    if f.requires > 0 {
        found.push("it has a `requires`".to_string());
    }
    if clauses.is_empty() {
        found.push("it has no `ensures`".to_string());
        return found;
    }
    if clauses.iter().any(|body| has_premise(body)) {
        found.push("its `ensures` is an implication".to_string());
    }
    if f.result && !tells(&clauses, "result") {
        found.push("its `ensures` does not tell the result".to_string());
    }
    // what a lent parameter holds in the end: `p.new`, or as the second of a pair
    let ends = |p: &str| [".new", ".exit.now"].map(|end| tells(&clauses, &format!("{p}{end}")));
    let untold = |p: &&String| !ends(p).contains(&true);
    for parameter in f.lent.iter().filter(untold) {
        found.push(format!(
            "its `ensures` does not tell what `{parameter}` holds in the end"
        ));
    }
    let mut seen = BTreeSet::new();
    let named: BTreeSet<&str> = clauses.iter().flat_map(|body| words(body)).collect();
    for word in named {
        let hidden = specs
            .resolve(scope, word)
            .and_then(|(m, n)| specs.hidden(&m, &n, &mut seen));
        if let Some(inner) = hidden {
            found.push(match inner == word {
                true => format!("`{word}` in its `ensures` hides an implication"),
                false => format!("`{word}` in its `ensures` hides an implication, in `{inner}`"),
            });
        }
    }
    found
}

/// The paths that are called from another crate than their own, each as its own crate has it.
fn called(all: &[Code]) -> BTreeSet<String> {
    let names: BTreeMap<String, String> = all.iter().flat_map(|c| c.handed_on()).collect();
    let mut paths = BTreeSet::new();
    for code in all {
        for path in code.calls() {
            let path = names.get(&path).cloned().unwrap_or(path);
            if path.split("::").next() != Some(&code.name) {
                paths.insert(path);
            }
        }
    }
    paths
}

pub fn check(root: &Path) -> Report {
    let specs = Specs::new(root);
    let all: Vec<Code> = crates(root).iter().map(|n| read_crate(root, n)).collect();
    let called = called(&all);
    let mut report = Report {
        findings: Vec::new(),
        public: 0,
    };
    for code in all.iter().filter(|c| !c.program) {
        let open = code.open_modules();
        let handed: BTreeSet<String> = code.handed_on().into_values().collect();
        for file in &code.files {
            let scope = scope_of(file);
            let seen = file.module == code.name || open.contains(&file.module);
            for f in file
                .functions()
                .into_iter()
                .filter(|f| f.public && (seen || handed.contains(&f.path)))
            {
                report.public += 1;
                let mut what = wanting(&f, &scope, &specs);
                let by_value = |c: &Code| {
                    let name = f.method.as_ref();
                    c.name != code.name && name.is_some_and(|n| c.methods_called().contains(n))
                };
                if !f.external && !called.contains(&f.path) && !all.iter().any(by_value) {
                    what.push("no other crate calls it".to_string());
                }
                let place = format!("{}:{}", f.file.display(), f.line);
                report.findings.extend(what.into_iter().map(|what| Finding {
                    path: f.path.clone(),
                    place: place.clone(),
                    what,
                }));
            }
        }
    }
    report
}
