//! `bench [--no-write]`: times of the proved library beside the original's text, and of its sheets
//! beside a plain writer and a plain reader. It prints a table and writes the same as docs/bench.md
//! and docs/bench.svg.
//!
//! Exit 0: every limit is kept. 1: one is not. 2: nothing was measured, or the pages were not
//! written; the message says why.

mod cases;
mod machine;
mod memory;
mod numbers;
mod page;
mod plot;
mod table;
mod timing;

use std::path::Path;
use std::process::ExitCode;
use std::{env, fs, io};

use cases::{Case, Group, Pair};
use table::{Beside, Line, Table};

fn main() -> ExitCode {
    let groups = may_write().and_then(|write| Ok((write, groups()?)));
    match groups {
        Err(message) => cannot(&message),
        Ok((write, groups)) => run(write, groups),
    }
}

/// Reads the words of the command.
fn may_write() -> Result<bool, String> {
    let words: Vec<String> = env::args().skip(1).collect();
    match words.as_slice() {
        [] => Ok(true),
        [word] if word == "--no-write" => Ok(false),
        _ => Err(format!(
            "cannot read '{}'; usage: bench [--no-write]",
            words.join(" ")
        )),
    }
}

fn groups() -> Result<Vec<Group>, String> {
    if cfg!(debug_assertions) {
        return Err("built without optimisation; build it with --release".into());
    }
    let original = oracle::original_at_hand().ok_or(
        "the original's text was not compiled in; let VSSS_RS_SOURCE name, by an absolute path, \
         the folder of vsss-rs 6.0.1 that holds src/gf256.rs, and build again",
    )?;
    Ok(cases::all(original))
}

fn run(write: bool, groups: Vec<Group>) -> ExitCode {
    let tables: Vec<Table> = groups.into_iter().map(measure).collect();
    let written = if write { write_pages(&tables) } else { Ok(()) };
    match written {
        Ok(()) => judge(&tables),
        Err(error) => cannot(&format!("the pages were not written: {error}")),
    }
}

/// Measures a group, and prints each line as soon as it is known.
fn measure(group: Group) -> Table {
    let mut table = Table::headed(&group);
    println!("{}", table.heading_as_text());
    for case in &group.cases {
        let mut pair = (case.prepare)();
        let bytes = pair.assert_alike();
        let memory = memory::growth(|| pair.ours());
        let times = timing::race(&mut *pair);
        let a_byte = group
            .shorter(case)
            .map(|shorter| a_byte(case, &mut *pair, shorter));
        let line = Line::new(case, bytes, times, Beside { a_byte, memory });
        println!("{}", line.as_text());
        table.lines.push(line);
    }
    for (note, _) in table.notes() {
        println!("{note}");
    }
    println!();
    table
}

/// The time of a byte of the secret in a case, as a part of that in the other, whose secret is shorter.
fn a_byte(case: &Case, pair: &mut dyn Pair, other: &Case) -> f64 {
    let mut shorter = (other.prepare)();
    shorter.assert_alike();
    let length = |case: &Case| *case.numbers.last().expect("the length is the last");
    let parts = (length(case) / length(other)) as u32;
    timing::times_as_long(|| pair.ours(), || shorter.ours(), parts)
}

fn write_pages(tables: &[Table]) -> io::Result<()> {
    let docs = Path::new(env!("CARGO_MANIFEST_DIR")).join("../../docs");
    fs::write(docs.join("bench.md"), page::markdown(tables))?;
    fs::write(docs.join("bench.svg"), plot::svg(tables))?;
    println!("written: docs/bench.md, docs/bench.svg");
    Ok(())
}

/// Names every limit that is not kept.
fn judge(tables: &[Table]) -> ExitCode {
    let missed: Vec<String> = tables.iter().flat_map(Table::missed).collect();
    for line in &missed {
        eprintln!("bench: limit not kept: {line}");
    }
    if missed.is_empty() {
        println!("every limit is kept");
    }
    ExitCode::from(u8::from(!missed.is_empty()))
}

fn cannot(message: &str) -> ExitCode {
    eprintln!("bench: {message}");
    ExitCode::from(2)
}
