//! docs/bench.md: the tables, and how they were measured.

use crate::machine::{ARCHITECTURE, COMPILER, processor};
use crate::table::Table;
use crate::timing::{BATCH, FEWEST_ROUNDS, MOST_ROUNDS};

pub fn markdown(tables: &[Table]) -> String {
    let tables: Vec<String> = tables.iter().map(Table::as_markdown).collect();
    [INTRODUCTION, &tables.join("\n"), "\n", &how()].concat()
}

const INTRODUCTION: &str = "\
# Times

One call of ours beside one of the original (vsss-rs 6.0.1) on the same input, both optimised; \
for sheets, which the original has not, beside a plain writer and a plain reader in Rust. \
The ratio is ours over the other's. L is the length of the secret in bytes, t the threshold, \
n the count of rows.

![The ratio of each line, with its limit](bench.svg)

";

fn how() -> String {
    let processor = processor();
    let batch = BATCH.as_millis();
    let archive = archive();
    format!(
        "\
## How it was measured

    VSSS_RS_SOURCE=FOLDER host/cargo run --release --offline --manifest-path host/bench/Cargo.toml

writes this page and the plot anew. FOLDER, an absolute path, holds `src/gf256.rs` of the \
original. The program fails where a limit is not kept.

- Processor: {processor}. Compiler of the others and of the calls: {COMPILER}, `--release`.
- {archive}
- The answers of both are compared first, and have to be equal.
- A line has {FEWEST_ROUNDS} to {MOST_ROUNDS} rounds, fewer where a call is long. Each round \
times a batch of ours, then a batch of the other's, each of as many calls as last about \
{batch} ms or more. \
A time is the median of its rounds, by call. The ratio is that of the medians.
- Bytes at two lengths: ours at the one and ours at the other, in turns, in batches of the same \
work; the least of each counts.
- Ours is called by its C entries. It is lent its memory, which is not cleared between calls.
- The original is its unchanged text with stand-ins for the crates that it names \
([host/oracle](../host/oracle/README.md)). It allocates and frees its rows and its secret \
itself, and reads its coefficients from a script of words in place of a random source. \
These are in its times.
- The plain writer ([sheet.rs](../host/bench/src/cases/sheet.rs)) pushes digits from a table, byte by \
byte, onto a vector that has the room already. It judges nothing and hides nothing.
- The plain reader ([line_reader.rs](../host/oracle/src/line_reader.rs)) takes each line apart at its \
tabs and pushes the value of two digits at a time onto a vector that has the room already. It judges \
all that ours does, and gives the same line where it refuses.
- Memory: the peak of what the process holds, as the system counts it, from before a call to after \
it. The call runs on a fresh stack, and all that it is lent has been written before. The count \
may miss some pages, hence the limit. The library knows no heap: it calls nothing but `memcpy` and \
`memset`.
- A megabyte is a million bytes.
"
    )
}

/// What ours was compiled by.
fn archive() -> String {
    match ARCHITECTURE {
        "x86_64" => "Ours is the proved archive as the kit makes it.".into(),
        _ => format!(
            "Ours: the kit makes x86-64 code. Here the proved module was compiled by the kit's \
             clang for {ARCHITECTURE} (`host/library`)."
        ),
    }
}
