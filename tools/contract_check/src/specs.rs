//! The definitions that contracts name, and whether one of them hides an implication: an arrow between propositions in the body of an `abbrev`, in a field of a
//! record, or in an argument of a case of a relation. A negation, an arrow to `⊥`, is none; nor is the arrow of a function's type.

use crate::text::{groups, split, unwrapped, words};
use std::cell::RefCell;
use std::collections::{BTreeMap, BTreeSet};
use std::path::{Path, PathBuf};
use std::rc::Rc;

/// A relation: the texts in which an implication can hide.
#[derive(Clone)]
pub enum Shape {
    /// bodies, and types of fields
    Plain,
    /// the types of cases: their own arrows join what holds
    Cases,
}

#[derive(Clone)]
pub struct Relation {
    pub shape: Shape,
    /// a type of values, and no proposition: it has no parameter, or only types
    pub data: bool,
    pub texts: Vec<String>,
}

/// A file of definitions: its relations, and the names that it has from others.
#[derive(Default)]
pub struct Module {
    relations: BTreeMap<String, Relation>,
    scope: Scope,
}

/// Names from other modules, each with its module's path and the name that it has there; and the modules that have a name.
#[derive(Default)]
pub struct Scope {
    names: BTreeMap<String, (String, String)>,
    modules: BTreeMap<String, String>,
}

pub struct Specs {
    root: PathBuf,
    read: RefCell<BTreeMap<String, Rc<Module>>>,
}

/// A line without its comment.
fn bare(line: &str) -> &str {
    match line.find("--") {
        Some(0) => "",
        Some(i) if line[..i].ends_with(' ') => line[..i].trim_end(),
        _ => line.trim_end(),
    }
}

fn indent(line: &str) -> usize {
    line.len() - line.trim_start().len()
}

/// The declarations of lines: each its first line, and those that stand further in.
fn chunks<'a>(lines: &[&'a str]) -> Vec<Vec<&'a str>> {
    let mut found: Vec<Vec<&str>> = Vec::new();
    let base = lines
        .iter()
        .filter(|l| !l.is_empty())
        .map(|l| indent(l))
        .min()
        .unwrap_or(0);
    for line in lines.iter().filter(|l| !l.is_empty()) {
        match found.last_mut() {
            Some(last) if indent(line) > base => last.push(line),
            _ => found.push(vec![line]),
        }
    }
    found
}

fn joined(lines: &[&str]) -> String {
    lines.join(" ")
}

/// What stands behind the first ` : ` or ` = ` outside brackets.
fn behind<'a>(text: &'a str, sign: char) -> Option<&'a str> {
    let parts = split(text, sign);
    (parts.len() > 1).then(|| {
        text[text.find(parts[0]).unwrap_or(0) + parts[0].len()..]
            .trim_start()
            .trim_start_matches(sign)
            .trim()
    })
}

impl Scope {
    /// A line `use MODULE.{names}` or `use MODULE as name`, with what may stand before it.
    pub fn take(&mut self, line: &str) {
        let Some(path) = line
            .split_once("use ")
            .map(|(_, p)| p.trim().trim_end_matches(';'))
        else {
            return;
        };
        if let Some((module, names)) = path.split_once(".{") {
            for name in split(names.trim_end_matches('}'), ',') {
                let (there, here) = name.split_once(" as ").unwrap_or((name, name));
                self.names.insert(
                    here.trim().to_string(),
                    (module.to_string(), there.trim().to_string()),
                );
            }
        } else {
            let (module, name) = path
                .split_once(" as ")
                .unwrap_or((path, path.rsplit('.').next().unwrap_or(path)));
            self.modules
                .insert(name.trim().to_string(), module.trim().to_string());
        }
    }
}

impl Module {
    fn add(&mut self, name: &str, shape: Shape, parameters: &[&str], texts: Vec<String>) {
        let data = parameters.iter().all(|p| {
            p.trim_end_matches(|c: char| c.is_numeric() || c == ' ')
                .ends_with("Type")
        });
        self.relations
            .insert(name.to_string(), Relation { shape, data, texts });
    }

    fn declare(&mut self, chunk: &[&str]) {
        let head = chunk[0].trim();
        let rest = ["unfoldable ", "abbrev ", "pub "]
            .iter()
            .fold(head, |h, w| h.strip_prefix(w).unwrap_or(h));
        let parts = |inner: &[&str]| {
            chunks(inner)
                .iter()
                .filter_map(|c| behind(&joined(c), ':').map(str::to_string))
                .collect()
        };
        let first = rest.split_whitespace().next().unwrap_or("");
        let second = rest.split_whitespace().nth(1).unwrap_or("");
        match first {
            "use" => self.scope.take(&joined(chunk)),
            "module" | "mutual" => chunks(&chunk[1..]).iter().for_each(|c| self.declare(c)),
            "record" => self.add(second, Shape::Plain, &groups(rest), parts(&chunk[1..])),
            "data" => self.add(second, Shape::Cases, &groups(rest), parts(&chunk[1..])),
            _ => self.clause(first, &joined(chunk)),
        }
    }

    /// A signature, which makes a relation where it ends in `Type`; or a clause of one.
    fn clause(&mut self, name: &str, text: &str) {
        if let Some(kind) = behind(text, ':') {
            let (end, arguments) = split(kind, '→')
                .split_last()
                .map_or(("", Vec::new()), |(e, a)| (*e, a.to_vec()));
            if end.starts_with("Type") {
                self.add(name, Shape::Plain, &arguments, Vec::new());
            }
        } else if let (Some(body), Some(r)) = (behind(text, '='), self.relations.get_mut(name)) {
            r.texts.push(body.to_string());
        }
    }
}

impl Specs {
    pub fn new(root: &Path) -> Specs {
        Specs {
            root: root.to_path_buf(),
            read: RefCell::default(),
        }
    }

    /// The file of a module `Rattle.CRATE.specs.A.B`.
    fn file(&self, module: &str) -> Option<PathBuf> {
        let (name, rest) = module.strip_prefix("Rattle.")?.split_once('.')?;
        Some(
            self.root
                .join("crates")
                .join(name)
                .join(rest.replace('.', "/"))
                .with_extension("antt"),
        )
    }

    fn module(&self, path: &str) -> Rc<Module> {
        if let Some(m) = self.read.borrow().get(path) {
            return m.clone();
        }
        let text = self
            .file(path)
            .and_then(|f| std::fs::read_to_string(f).ok())
            .unwrap_or_default();
        let lines: Vec<&str> = text.lines().map(bare).collect();
        let mut module = Module::default();
        chunks(&lines).iter().for_each(|c| module.declare(c));
        let module = Rc::new(module);
        self.read
            .borrow_mut()
            .insert(path.to_string(), module.clone());
        module
    }

    /// The module and the name of the relation that a word stands for.
    pub fn resolve(&self, scope: &Scope, word: &str) -> Option<(String, String)> {
        let (module, name) = match word.rsplit_once('.') {
            Some((alias, name)) => (scope.modules.get(alias)?, name),
            None => scope.names.get(word).map(|(m, n)| (m, n.as_str()))?,
        };
        self.find(module, name)
    }

    fn find(&self, path: &str, name: &str) -> Option<(String, String)> {
        let module = self.module(path);
        if module.relations.contains_key(name) {
            return Some((path.to_string(), name.to_string()));
        }
        let (next, there) = module.scope.names.get(name).filter(|(m, _)| m != path)?;
        self.find(next, there)
    }

    fn within(&self, path: &str, word: &str) -> Option<(String, String)> {
        if self.module(path).relations.contains_key(word) {
            return Some((path.to_string(), word.to_string()));
        }
        self.resolve(&self.module(path).scope, word)
    }

    fn is_proposition(&self, path: &str, text: &str) -> bool {
        split(unwrapped(text), '×').iter().any(|part| {
            let signs = part
                .split_whitespace()
                .any(|w| ["≡", "≤", "<", "≥", ">"].contains(&w));
            signs
                || words(part).first().is_some_and(|w| {
                    self.within(path, w)
                        .is_some_and(|(m, n)| !self.module(&m).relations[&n].data)
                })
        })
    }

    /// Has a text an arrow between propositions, outside or inside its brackets?
    fn implies(&self, path: &str, text: &str) -> bool {
        let parts = split(text, '→');
        let end = parts.last().copied().unwrap_or("");
        let outside = parts.len() > 1 && end != "⊥" && self.is_proposition(path, end);
        outside || groups(text).iter().any(|g| self.implies(path, g))
    }

    fn hides_itself(&self, path: &str, relation: &Relation) -> bool {
        relation.texts.iter().any(|text| match relation.shape {
            Shape::Plain => self.implies(path, text),
            Shape::Cases => split(text, '→')
                .iter()
                .any(|premise| groups(premise).iter().any(|g| self.implies(path, g))),
        })
    }

    /// The relation that hides an implication, among those that this one is made of.
    pub fn hidden(
        &self,
        path: &str,
        name: &str,
        seen: &mut BTreeSet<(String, String)>,
    ) -> Option<String> {
        if !seen.insert((path.to_string(), name.to_string())) {
            return None;
        }
        let relation = self.module(path).relations[name].clone();
        if self.hides_itself(path, &relation) {
            return Some(name.to_string());
        }
        let inner: BTreeSet<(String, String)> = relation
            .texts
            .iter()
            .flat_map(|t| words(t))
            .filter_map(|w| self.within(path, w))
            .collect();
        inner.iter().find_map(|(m, n)| self.hidden(m, n, seen))
    }
}
