//! What is wrong, as lines for standard error.

use std::io::Write;
use std::path::Path;
use weszlagyo::Refusal;

/// Lines for standard error. They are bytes, as the words of a command line
/// are.
#[derive(Debug, PartialEq, Eq)]
pub struct Failure(Vec<u8>);

impl Failure {
    /// A line of the command's own: its parts, behind the command's name.
    pub fn line(parts: &[&[u8]]) -> Self {
        Self([b"weszlagyo: ", &*parts.concat(), b"\n"].concat())
    }

    /// What the system said of a file.
    pub fn file(path: &Path, error: &std::io::Error) -> Self {
        let words = error.to_string();
        // without the number that Rust adds
        let words = words.split(" (os error").next().unwrap_or_default();
        let path = path.as_os_str().as_encoded_bytes();
        Self([path, b": ", words.as_bytes(), b"\n"].concat())
    }

    /// These lines, and then those.
    pub fn and(mut self, other: Self) -> Self {
        self.0.extend(other.0);
        self
    }

    /// Writes the lines. Nothing can be said where that fails.
    pub fn say(&self) {
        let _ = std::io::stderr().write_all(&self.0);
    }
}

impl From<Refusal> for Failure {
    fn from(refusal: Refusal) -> Self {
        Self::line(&[refusal.to_string().as_bytes()])
    }
}

/// What is wrong with either, or both.
pub fn both(first: Result<(), Failure>, second: Result<(), Failure>) -> Result<(), Failure> {
    match (first, second) {
        (Err(first), Err(second)) => Err(first.and(second)),
        (first, second) => first.and(second),
    }
}
