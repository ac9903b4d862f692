//! The check's own test: in a temporary copy of the crates, three more crates with planted faults. Each must be found, and nothing else in them.

use crate::findings::check;
use crate::judged;
use std::collections::{BTreeMap, BTreeSet};
use std::fs;
use std::path::Path;

const LIBRARY: &str = r#"// Functions with a fault each, and some with none.
pub mod open;
mod shut;

pub use shut::handed_on;
ghost use Rattle.planted.specs.Planted.{Hidden, Deep, Cased, Fine,
    Hidden as Veiled, double};
ghost use Rattle.planted.specs.Planted as planted;

pub fn whole(a: &mut [u8]) -> u8
    ensures { Fine result a.new }
{
    0
}

pub fn whole_in_clauses(a: &mut [u8]) -> u8
    ensures value { result ≡ double 0 }
    ensures a_after { a.new ≡ a.old }
{
    0
}

pub fn whole_by_pairs<'a>(a: &'a mut [u8], b: &mut u8) -> u8
    ensures { Fine result a.exit.now × (b.new ≡ b.old) }
{
    0
}

pub fn whole_in_parts(a: &mut Pair) -> Pair
    ensures { (result.first ≡ 0) × (a.new.first ≡ 0) }
{
    0
}

pub fn silent() -> u8 {
    0
}

pub fn asking(n: u8) -> u8
    requires { n < 5 }
    ensures { result ≡ double n }
{
    n
}

pub fn asking_by_name(n: u8) -> u8
    ensures value { result ≡ double n }
    requires* low { n < 5 }
{
    n
}

pub fn implying(n: u8) -> u8
    ensures { n ≡ 0 → result ≡ 0 }
{
    n
}

pub fn implying_by_name(n: u8) -> u8
    ensures value { result ≡ double n }
    ensures zero { n ≡ 0 → result ≡ 0 }
{
    n
}

pub fn for_each(n: u8) -> u8
    ensures { (k : ℕ) (l : List ℕ) → result ≡ double n }
{
    n
}

pub fn for_some(n: u8) -> u8
    ensures { (k : ℕ) (h : n ≡ k) → result ≡ double n }
{
    n
}

pub fn resultless(a: &mut [u8]) -> u8
    ensures { a.new ≡ a.old }
{
    0
}

pub fn bounded(n: u8) -> u8
    ensures { (result < 5) × (2 ≡ length result) × (3 ≡ length (result.items)) }
{
    n
}

pub fn exitless<'a>(a: &'a mut [u8], b: &mut u8) -> u8
    ensures value { result ≡ double b.new }
    ensures a_length { length a.new ≡ length a.old }
{
    0
}

pub fn hiding(n: u8) -> u8
    ensures { Hidden n result }
{
    n
}

pub fn hiding_by_name(n: u8) -> u8
    ensures value { Veiled n result }
{
    n
}

pub fn hiding_deep(n: u8) -> u8
    ensures { planted.Deep n result }
{
    n
}

pub fn hiding_in_a_case(n: u8) -> u8
    ensures { Cased n result }
{
    n
}

pub fn uncalled(n: u8) -> u8
    ensures { result ≡ double n }
{
    n // uncalled(n)
}

pub struct Pair {
    pub first: u8,
}

impl Pair {
    pub fn by_value(&mut self) -> u8
        ensures { Fine result self.new }
    {
        self.unheard()
    }

    pub fn forgetful(&mut self) -> u8
        ensures { result ≡ 0 }
    {
        0
    }

    pub fn unheard(&self) -> u8
        ensures { result ≡ 0 }
    {
        0
    }
}

pub(crate) fn inner() -> u8 {
    uncalled(0)
}

fn own() -> u8 {
    0
}
"#;

const OPEN: &str = "pub fn silent() -> [u8; 2] {\n    [0; 2]\n}\n";

const SHUT: &str = "pub fn handed_on() -> u8 {\n    0\n}\n\npub fn kept() -> u8 {\n    0\n}\n";

const SPECS: &str = "-- Relations with and without a hidden implication.
use Rattle.records.specs.Got.{got}

unfoldable pub double : ℕ → ℕ
double n = n + n

abbrev pub Hidden : ℕ → ℕ → Type 0
Hidden n r = (k : ℕ) → n ≡ double k
    → r ≡ k

pub record Deep (n r : ℕ) : Type 0 where
  pub first : n ≡ r
  pub second : Hidden n r

pub data Cased (n r : ℕ) : Type 0 where
  cased : (k : ℕ) → ((i : ℕ) → i ≡ n → r ≡ i)
      → Cased n r

pub record Fine (r : ℕ) (s : List ℕ) : Type 0 where
  pub by : (f : ℕ → ℕ) × (r ≡ 0)
  pub cases : Case r

pub data Case (r : ℕ) : Type 0 where
  none : (r ≡ 0 → ⊥) → Case r
  some : (k : ℕ) → r ≡ k → Case r
";

const USER: &str = "use planted::asking;
use planted::open;
use planted::bounded as held;

fn main() {
    whole(0);
    planted::whole(0);
    planted::whole_in_clauses(0);
    planted::whole_by_pairs(0);
    planted::whole_in_parts(0);
    planted::silent();
    asking(1);
    planted::asking_by_name(1);
    planted::implying(1);
    planted::implying_by_name(1);
    planted::for_each(1);
    planted::for_some(1);
    planted::resultless(1);
    held(1);
    planted::exitless(1);
    planted::hiding(1);
    planted::hiding_by_name(1);
    planted::hiding_deep(1);
    planted::hiding_in_a_case(1);
    pair.by_value();
    planted::Pair::forgetful(pair);
    open::silent();
    planted::handed_on();
    print(b\"planted::uncalled(1)\");
}
";

const EXPORTS: &str = "ghost use Rattle.planted.specs.Planted.{double};

#[unsafe(no_mangle)]
pub extern \"C\" fn planted_whole(n: u8) -> u8
    ensures { result ≡ double n }
{
    planted::whole_in_clauses(n)
}

#[unsafe(no_mangle)]
pub extern \"C\" fn planted_silent(n: u8) -> u8 {
    n
}
";

const EXPECTED: [(&str, &str); 19] = [
    ("planted::silent", "it has no `ensures`"),
    ("planted::asking", "it has a `requires`"),
    ("planted::asking_by_name", "it has a `requires`"),
    ("planted::implying", "its `ensures` is an implication"),
    (
        "planted::implying_by_name",
        "its `ensures` is an implication",
    ),
    ("planted::for_some", "its `ensures` is an implication"),
    (
        "planted::resultless",
        "its `ensures` does not tell the result",
    ),
    ("planted::bounded", "its `ensures` does not tell the result"),
    (
        "planted::exitless",
        "its `ensures` does not tell what `a` holds in the end",
    ),
    (
        "planted::hiding",
        "`Hidden` in its `ensures` hides an implication",
    ),
    (
        "planted::hiding_by_name",
        "`Veiled` in its `ensures` hides an implication, in `Hidden`",
    ),
    (
        "planted::hiding_deep",
        "`planted.Deep` in its `ensures` hides an implication, in `Hidden`",
    ),
    (
        "planted::hiding_in_a_case",
        "`Cased` in its `ensures` hides an implication",
    ),
    ("planted::uncalled", "no other crate calls it"),
    (
        "planted::Pair::forgetful",
        "its `ensures` does not tell what `self` holds in the end",
    ),
    ("planted::Pair::unheard", "no other crate calls it"),
    ("planted::open::silent", "it has no `ensures`"),
    ("planted_c::planted_silent", "it has no `ensures`"),
    ("planted::shut::handed_on", "it has no `ensures`"),
];

fn copy(from: &Path, to: &Path) -> std::io::Result<()> {
    fs::create_dir_all(to)?;
    for entry in fs::read_dir(from)?.flatten() {
        let target = to.join(entry.file_name());
        if entry.path().is_dir() {
            copy(&entry.path(), &target)?;
        } else {
            fs::copy(entry.path(), target)?;
        }
    }
    Ok(())
}

fn write(root: &Path, name: &str, text: &str) -> std::io::Result<()> {
    let path = root.join(name);
    fs::create_dir_all(path.parent().unwrap_or(root))?;
    fs::write(path, text)
}

/// A copy of what the check reads, and the three crates more.
fn plant(root: &Path, to: &Path) -> std::io::Result<()> {
    for entry in fs::read_dir(root.join("crates"))?.flatten() {
        for part in ["src", "specs"] {
            let from = entry.path().join(part);
            if from.is_dir() {
                copy(&from, &to.join("crates").join(entry.file_name()).join(part))?;
            }
        }
    }
    let list = fs::read_to_string(root.join("crates.txt"))?
        + "planted: records\nplanted_c staticlib: planted\nplanted_user: planted\n";
    write(to, "crates.txt", &list)?;
    write(to, "crates/planted/src/lib.rt", LIBRARY)?;
    write(to, "crates/planted/src/open.rt", OPEN)?;
    write(to, "crates/planted/src/shut.rt", SHUT)?;
    write(to, "crates/planted/specs/Planted.antt", SPECS)?;
    write(to, "crates/planted_c/src/lib.rt", EXPORTS)?;
    write(to, "crates/planted_user/src/main.rt", USER)
}

fn compared(to: &Path) -> usize {
    let report = check(to);
    let found: BTreeSet<(&str, &str)> = report
        .findings
        .iter()
        .filter(|f| f.path.starts_with("planted"))
        .map(|f| (f.path.as_str(), f.what.as_str()))
        .collect();
    let expected: BTreeSet<(&str, &str)> = EXPECTED.into_iter().collect();
    let missing = expected
        .difference(&found)
        .map(|e| format!("not found: {}: {}", e.0, e.1));
    let others = found
        .difference(&expected)
        .map(|e| format!("found, and no fault: {}: {}", e.0, e.1));
    let mut faults: Vec<String> = missing.chain(others).collect();
    let entry = |path: &str| BTreeMap::from([(path.to_string(), "a reason".to_string())]);
    let (_, without) = judged(&report, &BTreeMap::new());
    if judged(&report, &entry("planted::silent")).1 + 1 != without {
        faults.push("an entry that is needed does not allow its function".to_string());
    }
    if judged(&report, &entry("planted::whole")).1 != without + 1 {
        faults.push("an entry that is not needed is no fault".to_string());
    }
    faults.iter().for_each(|f| println!("self-test: {f}"));
    println!(
        "self-test: {} planted faults, {} wrong",
        expected.len(),
        faults.len()
    );
    faults.len()
}

pub fn run(root: &Path) -> Result<usize, String> {
    let to = std::env::temp_dir().join(format!("contracts-{}", std::process::id()));
    let planted = plant(root, &to).map_err(|e| format!("the copy: {e}"));
    let faults = planted.map(|()| compared(&to));
    fs::remove_dir_all(&to).ok();
    faults
}
