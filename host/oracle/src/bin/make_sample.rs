//! Writes the stored sample of the original's answers: `make_sample [FOLDER]`.
//!
//! The folder is the package's own `sample` by default. Exit 0 written, 1 not writable, 2 where the
//! original is not at hand.

use oracle::sample_maker;
use std::env;
use std::path::PathBuf;
use std::process::ExitCode;

fn main() -> ExitCode {
    let Some(original) = oracle::original_at_hand() else {
        eprintln!("built without the original: set VSSS_RS_SOURCE to its folder and build again");
        return ExitCode::from(2);
    };
    let sample = sample_maker::make(original);
    let files = [("split.txt", sample.split), ("combine.txt", sample.combine)];
    match sample_maker::store(env::args_os().nth(1).map(PathBuf::from), &files) {
        Ok(()) => ExitCode::SUCCESS,
        Err(message) => {
            eprintln!("{message}");
            ExitCode::FAILURE
        }
    }
}
