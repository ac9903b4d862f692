//! The stored command lines and their answers, `stored/*.txt`. A line there is
//!
//!     # a comment
//!     $ the words, set apart by spaces; "in quotes" a word may have some, or be empty
//!     > a line of standard output
//!     ! a line of standard error
//!     + a file that was written, its length, and the sum of its bytes
//!     = the status, where it is not 0
//!
//! Everywhere `\\`, `\"`, `\xHH` and `\u{HEX}` stand for a byte or a character,
//! and `\{N:c}` for N times the character c.

use std::path::Path;

/// A command line, and what it gave.
#[derive(Default)]
pub struct Stored {
    /// File and line.
    pub place: String,
    pub words: Vec<Vec<u8>>,
    pub out: Vec<u8>,
    pub err: Vec<u8>,
    /// Name, length and sum.
    pub saved: Vec<(String, usize, u64)>,
    pub status: i32,
}

/// FNV-1a, of 64 bits.
pub fn sum(bytes: &[u8]) -> u64 {
    bytes.iter().fold(0xcbf2_9ce4_8422_2325, |sum, b| {
        (sum ^ u64::from(*b)).wrapping_mul(0x100_0000_01b3)
    })
}

/// All of them, by file.
pub fn all() -> Vec<Stored> {
    let folder = Path::new(env!("CARGO_MANIFEST_DIR")).join("tests/commands/stored");
    let mut files: Vec<_> = std::fs::read_dir(folder)
        .expect("the folder")
        .map(|file| file.expect("a file").path())
        .collect();
    files.sort();
    files.iter().flat_map(|file| read(file)).collect()
}

fn read(file: &Path) -> Vec<Stored> {
    let text = std::fs::read_to_string(file).expect("it is text");
    let name = file.file_name().expect("a name").to_string_lossy();
    let mut all: Vec<Stored> = Vec::new();
    for (at, line) in text.lines().enumerate() {
        let (mark, rest) = line.split_at(line.len().min(1));
        let rest = rest.strip_prefix(' ').unwrap_or(rest);
        if mark == "$" {
            all.push(Stored {
                place: format!("{name}:{}", at + 1),
                words: words(rest),
                ..Stored::default()
            });
            continue;
        }
        let last = all.last_mut();
        match (mark, last) {
            ("" | "#", _) => {}
            (">", Some(last)) => last.out.extend(unescaped(rest, true)),
            ("!", Some(last)) => last.err.extend(unescaped(rest, true)),
            ("=", Some(last)) => last.status = rest.parse().expect("a status"),
            ("+", Some(last)) => last
                .saved
                .push(saved(rest).expect("a name and two numbers")),
            _ => panic!("{name}:{}: not understood: {line}", at + 1),
        }
    }
    all
}

fn saved(text: &str) -> Option<(String, usize, u64)> {
    let mut parts = text.split(' ');
    let name = parts.next()?.to_string();
    let length = parts.next()?.parse().ok()?;
    Some((name, length, u64::from_str_radix(parts.next()?, 16).ok()?))
}

/// The words of a line: a space outside of quotes ends one.
fn words(line: &str) -> Vec<Vec<u8>> {
    let mut out = Vec::new();
    let (mut from, mut quoted, mut escaped) = (0, false, false);
    for (at, c) in line.char_indices() {
        match c {
            _ if escaped => escaped = false,
            '\\' => escaped = true,
            '"' => quoted = !quoted,
            ' ' if !quoted => {
                out.push(word(&line[from..at]));
                from = at + 1;
            }
            _ => {}
        }
    }
    if !line.is_empty() {
        out.push(word(&line[from..]));
    }
    out
}

fn word(text: &str) -> Vec<u8> {
    let inner = text.strip_prefix('"').and_then(|t| t.strip_suffix('"'));
    unescaped(inner.unwrap_or(text), false)
}

/// The bytes that a text stands for, and the end of a line.
fn unescaped(text: &str, is_line: bool) -> Vec<u8> {
    let mut out = Vec::new();
    let mut rest = text;
    while let Some(at) = rest.find('\\') {
        out.extend(rest[..at].bytes());
        let (bytes, behind) = escape(&rest[at + 1..]).expect("an escape");
        out.extend(bytes);
        rest = behind;
    }
    out.extend(rest.bytes());
    out.extend(is_line.then_some(b'\n'));
    out
}

/// What an escape stands for, and what is behind it.
fn escape(text: &str) -> Option<(Vec<u8>, &str)> {
    let (kind, rest) = text.split_at(1);
    Some(match kind {
        "\\" | "\"" => (kind.into(), rest),
        "x" => (vec![u8::from_str_radix(&rest[..2], 16).ok()?], &rest[2..]),
        "u" => {
            let (number, behind) = rest.strip_prefix('{')?.split_once('}')?;
            let c = char::from_u32(u32::from_str_radix(number, 16).ok()?)?;
            (c.to_string().into(), behind)
        }
        "{" => {
            let (inner, behind) = rest.split_once('}')?;
            let (count, c) = inner.split_once(':')?;
            (c.repeat(count.parse().ok()?).into(), behind)
        }
        _ => return None,
    })
}
