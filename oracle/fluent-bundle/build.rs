//! Copies the published folder `types` to OUT_DIR, with one replacement: the text
//! of a number loses a final dot, as document 02's Card 3 says. The document
//! itself is only read.
#![forbid(unsafe_code)]

use std::env;
use std::fs;
use std::path::{Path, PathBuf};

/// The published files.
const PUBLISHED: &str = "../../docs/src/src/types";

/// The file with the replacement, and the function that it is in.
const CHANGED: &str = "number.rs";
const FUNCTION: &str = "pub fn as_string(&self) -> Cow<'static, str> {";

/// What stands there, and what stands there in the copy.
const OLD: &str = "
        val.into()
";
const NEW: &str = "
        if val.ends_with('.') {
            val.pop();
        }
        val.into()
";

fn main() {
    // every file of the folder
    println!("cargo:rerun-if-changed={PUBLISHED}");
    println!("cargo:rerun-if-changed=build.rs");
    let out = PathBuf::from(env::var_os("OUT_DIR").expect("cargo sets it"));
    let copy = out.join("types");
    // nothing is left of a file that is not there any more
    if copy.exists() {
        fs::remove_dir_all(&copy).expect("clear the copy");
    }
    fs::create_dir(&copy).expect("make the folder");
    let mut changed = 0;
    for file in fs::read_dir(PUBLISHED).expect("the published folder") {
        let file = file.expect("a published file").path();
        let name = file.file_name().expect("a name");
        let to = copy.join(name);
        if name == CHANGED {
            let published = fs::read_to_string(&file).expect("read the file");
            fs::write(&to, replaced(&published)).expect("write its copy");
            changed += 1;
        } else {
            same(&file, &to);
        }
    }
    assert_eq!(changed, 1, "{CHANGED} stands in {PUBLISHED} once");
    fs::write(out.join("copied.rs"), "pub mod types;\n").expect("write the module");
}

/// A copy of a file, byte for byte.
fn same(file: &Path, to: &Path) {
    let bytes = fs::read(file).expect("read the file");
    fs::write(to, &bytes).expect("write its copy");
}

/// The file with the one replacement.
fn replaced(published: &str) -> String {
    assert_eq!(published.matches(OLD).count(), 1, "it stands there once");
    let (before, after) = published.split_once(OLD).expect("it stands there");
    let function = &before[before.rfind("fn ").expect("a function") - "pub ".len()..];
    assert!(function.starts_with(FUNCTION), "it stands in {FUNCTION}");
    [before, NEW, after].concat()
}
