//! Asks the command for a sighting, in its machine-readable lines.

use std::process::{exit, Command};

/// The languages in the order of the command's lines.
pub const LANGUAGES: [(&str, &str); 4] = [
    ("en", "English"),
    ("da", "Dansk"),
    ("ru", "Русский"),
    ("cy", "Cymraeg"),
];

/// The command `weszlagyo`, by its path.
pub struct Weszlagyo {
    pub path: String,
}

pub struct Sighting {
    pub species: &'static str,
    pub count: u64,
    pub calves: u64,
    pub distance: u64,
    pub leg: u64,
    pub missing: Option<&'static str>,
    pub message: &'static str,
}

impl Sighting {
    pub const USUAL: Sighting = Sighting {
        species: "porpoise",
        count: 3,
        calves: 1,
        distance: 400,
        leg: 7,
        missing: None,
        message: "report",
    };
}

/// What a formatting gave.
pub struct Answer {
    pub begun: u32,
    pub unfound: u64,
    pub text: String,
    pub errors: Vec<String>,
}

impl Weszlagyo {
    /// The sighting in the four languages.
    pub fn ask(&self, s: &Sighting) -> [Answer; 4] {
        let mut command = Command::new(&self.path);
        command.args(["sheet", "--lines", "--message", s.message]);
        command.args(["--species", s.species]);
        let numbers = [
            ("--count", s.count),
            ("--calves", s.calves),
            ("--distance", s.distance),
            ("--leg", s.leg),
        ];
        for (option, n) in numbers {
            command.args([option, &n.to_string()]);
        }
        if let Some(field) = s.missing {
            command.args(["--no", field]);
        }
        let run = command.output().unwrap_or_else(|e| fail(&e.to_string()));
        if !run.status.success() {
            fail(String::from_utf8_lossy(&run.stderr).trim());
        }
        let lines = String::from_utf8(run.stdout).unwrap_or_else(|e| fail(&e.to_string()));
        let mut lines = lines.lines();
        LANGUAGES.map(|(language, _)| {
            let line = lines.next().unwrap_or_else(|| fail("a line is missing"));
            read(line, language).unwrap_or_else(|| fail(&format!("not understood: {line}")))
        })
    }
}

/// Language, message, begun, unfound, errors, text, and each error.
fn read(line: &str, language: &str) -> Option<Answer> {
    let mut parts = line.split('\t');
    if parts.next()? != language {
        return None;
    }
    parts.next()?;
    let begun = parts.next()?.parse().ok()?;
    let unfound = parts.next()?.parse().ok()?;
    let count: usize = parts.next()?.parse().ok()?;
    let text = parts.next()?.to_string();
    let errors: Vec<String> = parts.map(str::to_string).collect();
    (errors.len() == count).then_some(Answer {
        begun,
        unfound,
        text,
        errors,
    })
}

fn fail(what: &str) -> ! {
    eprintln!("table: the command: {what}");
    exit(1);
}
