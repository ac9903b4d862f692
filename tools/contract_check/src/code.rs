//! What the check reads of a crate's code: its functions with their contracts, its modules and the calls into other crates.

use crate::text::{groups, inside, split, turn};
use std::collections::{BTreeMap, BTreeSet};
use std::path::{Path, PathBuf};

pub struct Function {
    /// the crate, its modules, a method's type and the name, joined by `::`
    pub path: String,
    /// the name of a method
    pub method: Option<String>,
    pub file: PathBuf,
    pub line: usize,
    pub public: bool,
    pub external: bool,
    pub result: bool,
    /// the names of the `&mut` parameters
    pub lent: Vec<String>,
    pub requires: usize,
    pub ensures: Vec<String>,
}

/// One file of code, its comments and the insides of its strings blank.
pub struct File {
    pub path: PathBuf,
    /// the path of its module: the crate and the modules
    pub module: String,
    pub text: String,
}

/// A crate's files. A program has a main.rt.
pub struct Code {
    pub name: String,
    pub files: Vec<File>,
    pub program: bool,
}

fn blanked(text: &str) -> String {
    let c: Vec<char> = text.chars().collect();
    let mut out: Vec<char> = c.clone();
    let mut i = 0;
    while i < c.len() {
        let from = i;
        match c[i] {
            '/' if c.get(i + 1) == Some(&'/') => {
                while i < c.len() && c[i] != '\n' {
                    i += 1;
                }
                out[from..i].fill(' ');
            }
            '"' => {
                i += 1;
                while i < c.len() && c[i] != '"' {
                    i += 1 + (c[i] == '\\') as usize;
                }
                out[from + 1..i.min(c.len())].fill(' ');
                i += 1;
            }
            '\'' if c.get(i + 1) == Some(&'\\') || c.get(i + 2) == Some(&'\'') => {
                i += 2;
                while i < c.len() && c[i] != '\'' {
                    i += 1;
                }
                out[from + 1..i.min(c.len())].fill(' ');
                i += 1;
            }
            _ => i += 1,
        }
    }
    out.into_iter().collect()
}

fn files_in(dir: &Path, found: &mut Vec<PathBuf>) {
    let mut entries: Vec<PathBuf> = std::fs::read_dir(dir)
        .into_iter()
        .flatten()
        .flatten()
        .map(|e| e.path())
        .collect();
    entries.sort();
    for path in entries {
        if path.is_dir() {
            files_in(&path, found);
        } else if path.extension().is_some_and(|e| e == "rt") {
            found.push(path);
        }
    }
}

fn module_of(name: &str, src: &Path, file: &Path) -> String {
    let inner = file.strip_prefix(src).unwrap_or(file).with_extension("");
    let mut parts: Vec<String> = inner
        .iter()
        .map(|p| p.to_string_lossy().into_owned())
        .collect();
    if parts == ["lib"] || parts == ["main"] {
        parts.clear();
    }
    parts.insert(0, name.to_string());
    parts.join("::")
}

pub fn read_crate(root: &Path, name: &str) -> Code {
    let src = root.join("crates").join(name).join("src");
    let mut paths = Vec::new();
    files_in(&src, &mut paths);
    let files = paths.iter().map(|path| File {
        path: path.strip_prefix(root).unwrap_or(path).to_path_buf(),
        module: module_of(name, &src, path),
        text: blanked(&std::fs::read_to_string(path).unwrap_or_default()),
    });
    Code {
        name: name.to_string(),
        files: files.collect(),
        program: src.join("main.rt").exists(),
    }
}

fn is_word(c: char) -> bool {
    c.is_alphanumeric() || c == '_'
}

/// Where a word stands in a text.
fn places<'a>(text: &'a str, word: &'a str) -> impl Iterator<Item = usize> + 'a {
    text.match_indices(word).map(|(i, _)| i).filter(move |&i| {
        !text[..i].ends_with(is_word) && !text[i + word.len()..].starts_with(is_word)
    })
}

/// What stands before an item's keyword: `pub`, `extern`.
fn modifiers(text: &str, at: usize) -> Vec<&str> {
    let from = text[..at].rfind([';', '{', '}', ']']).map_or(0, |i| i + 1);
    text[from..at].split_whitespace().collect()
}

fn lent(parameters: &str) -> Vec<String> {
    let mut names = Vec::new();
    for p in split(parameters, ',') {
        let Some((name, kind)) = p.split_once(':') else {
            if p.starts_with('&') && p.ends_with("mut self") {
                names.push("self".to_string());
            }
            continue;
        };
        let mut kind = kind.trim().strip_prefix('&').unwrap_or("").trim_start();
        if kind.starts_with('\'') {
            kind = kind
                .split_once(' ')
                .map_or("", |(_, rest)| rest.trim_start());
        }
        if kind.starts_with("mut ") {
            names.push(name.trim().to_string());
        }
    }
    names
}

/// The position of the first bracket `{` outside other brackets, if no `;` ends the item before.
fn body_at(text: &str, from: usize) -> Option<usize> {
    let mut depth = 0;
    for (i, c) in text[from..].char_indices() {
        match c {
            '{' if depth == 0 => return Some(from + i),
            ';' if depth == 0 => return None,
            _ => depth += turn(c),
        }
    }
    None
}

/// What stands behind an `impl`'s own parameters, if it has any.
fn behind_parameters(head: &str) -> &str {
    let mut depth = 0;
    for (i, c) in head.char_indices() {
        depth += (c == '<') as i32 - (c == '>') as i32;
        if depth == 0 {
            return head[i..].trim_start_matches('>').trim_start();
        }
    }
    head
}

impl Function {
    /// The result's type and the clauses, from behind the parameters to the body.
    fn take_clauses(&mut self, text: &str, mut from: usize) -> Option<()> {
        loop {
            let open = body_at(text, from)?;
            let between = &text[from..open];
            let kind = between.split_once("->").map(|(_, t)| t.trim_start());
            self.result = self.result || kind.is_some_and(|t| !t.starts_with("()"));
            let range = inside(text, open);
            let clause = between
                .split_whitespace()
                .map(|w| w.trim_end_matches('*'))
                .find(|w| ["requires", "ensures"].contains(w));
            match clause {
                Some("requires") => self.requires += 1,
                Some(_) => self.ensures.push(text[range.clone()].to_string()),
                None => return Some(()),
            }
            from = range.end + 1;
        }
    }
}

impl File {
    /// The type whose `impl` a position stands in.
    fn owner(&self, at: usize) -> Option<String> {
        let of = |i: usize| {
            let open = i + self.text[i..].find('{')?;
            let head = self.text[i + 4..open].rsplit(" for ").next()?;
            let name: String = behind_parameters(head.trim_start())
                .chars()
                .take_while(|&c| is_word(c))
                .collect();
            inside(&self.text, open).contains(&at).then_some(name)
        };
        places(&self.text, "impl").filter_map(of).last()
    }

    /// The names that stand as methods of a value where they are called.
    fn methods_called(&self) -> BTreeSet<String> {
        let name = |open: usize| {
            let before = &self.text[..open];
            let from = before.rfind(|c: char| !is_word(c))?;
            before[from..].strip_prefix('.').map(str::to_string)
        };
        self.text
            .match_indices('(')
            .filter_map(|(open, _)| name(open))
            .collect()
    }

    /// The function whose `fn` stands here.
    fn function(&self, at: usize) -> Option<Function> {
        let text = &self.text;
        let name: String = text[at + 2..]
            .trim_start()
            .chars()
            .take_while(|&c| is_word(c))
            .collect();
        let parameters = inside(text, at + text[at..].find('(')?);
        let owner = self.owner(at);
        let place = match &owner {
            Some(of) => format!("{}::{of}", self.module),
            None => self.module.clone(),
        };
        let before = modifiers(text, at);
        let mut f = Function {
            path: format!("{place}::{name}"),
            method: owner.map(|_| name),
            file: self.path.clone(),
            line: text[..at].matches('\n').count() + 1,
            public: before.first() == Some(&"pub"),
            external: before.contains(&"extern"),
            result: false,
            lent: lent(&text[parameters.clone()]),
            requires: 0,
            ensures: Vec::new(),
        };
        f.take_clauses(text, parameters.end + 1)?;
        Some(f)
    }

    pub fn functions(&self) -> Vec<Function> {
        places(&self.text, "fn")
            .filter_map(|at| self.function(at))
            .collect()
    }

    /// The items `use PATH;`, those that hand a name on among them: the path, and the name that it has here.
    fn uses(&self, handed_on: bool) -> Vec<(String, String)> {
        let mut found = Vec::new();
        for at in places(&self.text, "use") {
            let before = modifiers(&self.text, at);
            let Some(end) = self.text[at..].find(';') else {
                continue;
            };
            if before.contains(&"ghost") || (handed_on && before.first() != Some(&"pub")) {
                continue;
            }
            let path = self.text[at + 3..at + end].trim();
            let (head, names) = match path.split_once('{') {
                Some((head, _)) => (head, split(groups(path)[0], ',')),
                None => ("", vec![path]),
            };
            for name in names.into_iter().filter(|n| !n.is_empty()) {
                let full = format!("{head}{name}");
                let (full, alias) = full
                    .split_once(" as ")
                    .map_or((full.clone(), None), |(f, a)| {
                        (f.trim().into(), Some(a.trim().to_string()))
                    });
                let last = full.rsplit("::").next().unwrap_or(&full).to_string();
                found.push((full, alias.unwrap_or(last)));
            }
        }
        found
    }

    /// The modules that this file declares, with whether others may see them.
    fn modules(&self) -> Vec<(String, bool)> {
        let declared = places(&self.text, "mod").map(|at| {
            let name: String = self.text[at + 3..]
                .trim_start()
                .chars()
                .take_while(|&c| is_word(c))
                .collect();
            (
                format!("{}::{name}", self.module),
                modifiers(&self.text, at).first() == Some(&"pub"),
            )
        });
        declared.collect()
    }

    /// The paths that are called, as they are written.
    fn called(&self) -> BTreeSet<String> {
        let mut paths = BTreeSet::new();
        for (open, _) in self.text.match_indices('(') {
            let path = self.text[..open]
                .rsplit(|c: char| !is_word(c) && c != ':')
                .next()
                .unwrap_or("");
            let path = path.trim_start_matches(':');
            if !path.is_empty() {
                paths.insert(path.to_string());
            }
        }
        paths
    }
}

impl Code {
    /// The modules that another crate can name.
    pub fn open_modules(&self) -> BTreeSet<String> {
        let declared: BTreeMap<String, bool> =
            self.files.iter().flat_map(|f| f.modules()).collect();
        let open = |module: &str| {
            let parts: Vec<&str> = module.split("::").collect();
            (2..=parts.len()).all(|n| declared.get(&parts[..n].join("::")) == Some(&true))
        };
        self.files
            .iter()
            .map(|f| f.module.clone())
            .filter(|m| open(m))
            .collect()
    }

    /// The names that a module hands on, and what they stand for.
    pub fn handed_on(&self) -> BTreeMap<String, String> {
        let mut names = BTreeMap::new();
        for file in &self.files {
            for (path, name) in file.uses(true) {
                let path = path.trim_start_matches("self::");
                let target = match path.strip_prefix("crate::") {
                    Some(rest) => format!("{}::{rest}", self.name),
                    None => format!("{}::{path}", file.module),
                };
                names.insert(format!("{}::{name}", file.module), target);
            }
        }
        names
    }

    /// The names of the methods that this crate calls.
    pub fn methods_called(&self) -> BTreeSet<String> {
        self.files.iter().flat_map(|f| f.methods_called()).collect()
    }

    /// The paths that this crate calls, from the crate's name on.
    pub fn calls(&self) -> BTreeSet<String> {
        let mut all = BTreeSet::new();
        for file in &self.files {
            let here: BTreeMap<String, String> = file
                .uses(false)
                .into_iter()
                .map(|(path, name)| (name, path))
                .collect();
            for path in file.called() {
                let (first, rest) = path
                    .split_once("::")
                    .map_or((path.as_str(), ""), |(a, b)| (a, b));
                let full = match here.get(first) {
                    Some(start) if rest.is_empty() => start.clone(),
                    Some(start) => format!("{start}::{rest}"),
                    None => path.clone(),
                };
                all.insert(full);
            }
        }
        all
    }
}
