//! The command `weszlagyo`. It ends with status 0, or with 1 where something is
//! wrong, which it then says on standard error.
#![forbid(unsafe_code)]
#![warn(missing_docs)]

mod commands;
mod failure;
mod files;
mod output;
mod sheet;

use std::os::unix::ffi::OsStringExt;
use std::process::ExitCode;

fn main() -> ExitCode {
    let words: Vec<Vec<u8>> = std::env::args_os()
        .skip(1)
        .map(OsStringExt::into_vec)
        .collect();
    match commands::run(&words) {
        Ok(()) => ExitCode::SUCCESS,
        Err(failure) => {
            failure.say();
            ExitCode::FAILURE
        }
    }
}
