//! Writes the stored sheets: `make_sheet_sample [FOLDER]`.
//!
//! The folder is the package's own `sample` by default. Exit 0 written, 1 not writable. The
//! original is not needed.

use oracle::{sample_maker, sheet_sample};
use std::env;
use std::path::PathBuf;
use std::process::ExitCode;

fn main() -> ExitCode {
    let files = [("sheet.txt", sheet_sample::make())];
    match sample_maker::store(env::args_os().nth(1).map(PathBuf::from), &files) {
        Ok(()) => ExitCode::SUCCESS,
        Err(message) => {
            eprintln!("{message}");
            ExitCode::FAILURE
        }
    }
}
