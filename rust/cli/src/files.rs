//! Files that the command line names.

use crate::failure::Failure;
use std::ffi::OsStr;
use std::fs::File;
use std::io::{Read, Write};
use std::os::unix::ffi::OsStrExt;
use std::path::Path;

/// The path that a word names.
pub fn path(word: &[u8]) -> &Path {
    Path::new(OsStr::from_bytes(word))
}

/// Reads a file of at least one byte and at most `most`.
pub fn read(word: &[u8], most: usize) -> Result<Vec<u8>, Failure> {
    let path = path(word);
    let file = File::open(path).map_err(|e| Failure::file(path, &e))?;
    let mut bytes = Vec::new();
    // one more than it may have; what can't be read is as good as empty
    let _ = file.take(most as u64 + 1).read_to_end(&mut bytes);
    if bytes.is_empty() {
        return Err(Failure::line(&[word, b" is empty, or can't be read"]));
    }
    if bytes.len() > most {
        return Err(Failure::line(&[
            word,
            b" is longer than any store or arguments image",
        ]));
    }
    Ok(bytes)
}

/// Writes a file, in the place of what it had.
pub fn save(word: &[u8], bytes: &[u8]) -> Result<(), Failure> {
    let path = path(word);
    let written = File::create(path).and_then(|mut file| file.write_all(bytes));
    written.map_err(|e| Failure::file(path, &e))
}
