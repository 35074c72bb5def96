//! The desk: splits a key file into row files, combines them into the key, writes them as sheets
//! and reads sheets.
//!
//! `desk --help` says how it is used. Key, rows, sheets and coefficients are held in
//! [`vsss::Secret`] only, which wipes itself; hence `main` returns its exit code and nothing ends
//! the process earlier.

#![forbid(unsafe_code)]

mod args;
mod combine;
mod damage;
mod failure;
mod help;
mod input;
mod output;
mod read;
mod rows;
mod sheet;
mod sheets;
mod split;
mod words;

use std::env;
use std::ffi::OsString;
use std::io::{self, Write};
use std::path::Path;
use std::process::ExitCode;

use args::Command;
use failure::Failure;

fn main() -> ExitCode {
    let words = env::args_os().skip(1).collect();
    match run(words) {
        Ok(()) => ExitCode::SUCCESS,
        Err(failure) => {
            // Where not even this can be written, the exit code is all that is left.
            let _ = writeln!(io::stderr(), "{failure}");
            ExitCode::from(failure.exit_code())
        }
    }
}

fn run(words: Vec<OsString>) -> Result<(), Failure> {
    match args::parse(words)? {
        Command::Help(page) => return print_help(page),
        Command::Split(request) => report(&split::run(&request)?),
        Command::Combine(request) => report(&combine::run(&request)?),
        Command::Sheet(request) => report(&sheet::run(&request)?),
        Command::Read(request) => report(&read::run(&request)?),
    }
    Ok(())
}

fn print_help(page: &str) -> Result<(), Failure> {
    let written = io::stdout().write_all(help::shown(page).as_bytes());
    written.map_err(|error| Failure::cannot_write(Path::new("the help"), &error))
}

/// The files are in place by now, so a report that nobody reads is no failure.
fn report(text: &str) {
    let _ = io::stdout().write_all(text.as_bytes());
}
