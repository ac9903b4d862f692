//! Lists the functions that another crate can call and that have no whole contract. tools/contracts says how it is used.

mod code;
mod findings;
mod self_test;
mod specs;
mod text;

use findings::{check, Report};
use std::collections::{BTreeMap, BTreeSet};
use std::path::Path;

/// The functions that are allowed to lack something, each with its reason: one line each, `#` begins a comment.
fn allowed(root: &Path) -> Result<BTreeMap<String, String>, String> {
    let text = std::fs::read_to_string(root.join("tools/contracts.allowed")).unwrap_or_default();
    let mut entries = BTreeMap::new();
    for line in text
        .lines()
        .map(str::trim)
        .filter(|l| !l.is_empty() && !l.starts_with('#'))
    {
        let (path, reason) = line.split_once(char::is_whitespace).unwrap_or((line, ""));
        if reason.trim().is_empty() {
            return Err(format!("tools/contracts.allowed: '{path}' has no reason"));
        }
        entries.insert(path.to_string(), reason.trim().to_string());
    }
    Ok(entries)
}

/// The lines to print, and how many functions lack something that is not allowed; an entry that is not needed is a fault too.
pub fn judged(report: &Report, allowed: &BTreeMap<String, String>) -> (Vec<String>, usize) {
    let mut lines = Vec::new();
    let mut lacking = BTreeSet::new();
    for f in report
        .findings
        .iter()
        .filter(|f| !allowed.contains_key(&f.path))
    {
        lines.push(format!("{}: {}: {}", f.place, f.path, f.what));
        lacking.insert(&f.path);
    }
    let needed: BTreeSet<&String> = report.findings.iter().map(|f| &f.path).collect();
    let unneeded: Vec<&String> = allowed.keys().filter(|p| !needed.contains(p)).collect();
    lines.extend(
        unneeded
            .iter()
            .map(|p| format!("tools/contracts.allowed: '{p}' is not needed")),
    );
    lines.push(format!(
        "{} public functions, {} without a whole contract",
        report.public,
        lacking.len()
    ));
    (lines, lacking.len() + unneeded.len())
}

fn run(arguments: &[String]) -> Result<usize, String> {
    let root = Path::new(".");
    match arguments {
        [] => {
            let (lines, faults) = judged(&check(root), &allowed(root)?);
            lines.iter().for_each(|l| println!("{l}"));
            Ok(faults)
        }
        [a] if a == "--self-test" => self_test::run(root),
        _ => Err("usage: tools/contracts [--self-test]".to_string()),
    }
}

fn main() {
    let arguments: Vec<String> = std::env::args().skip(1).collect();
    let code = match run(&arguments) {
        Ok(0) => 0,
        Ok(_) => 1,
        Err(message) => {
            eprintln!("contracts: {message}");
            2
        }
    };
    std::process::exit(code);
}
