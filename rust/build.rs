//! Links the proved operations: `libexports.a`, which `tools/archive` writes to
//! `target/staticlib` at the top of the repository. Another folder can be named
//! by `WESZLAGYO_LIB`.

use std::env;
use std::path::PathBuf;

fn main() {
    println!("cargo:rerun-if-env-changed=WESZLAGYO_LIB");
    let folder = match env::var_os("WESZLAGYO_LIB") {
        Some(folder) => PathBuf::from(folder),
        None => PathBuf::from(env::var_os("CARGO_MANIFEST_DIR").expect("cargo sets it"))
            .join("../target/staticlib"),
    };
    let archive = folder.join("libexports.a");
    println!("cargo:rerun-if-changed={}", archive.display());
    if !archive.is_file() {
        println!(
            "cargo:error={} is missing: run `tools/archive` at the top of the repository",
            archive.display()
        );
        return;
    }
    println!("cargo:rustc-link-search=native={}", folder.display());
    println!("cargo:rustc-link-lib=static=exports");
}
