//! `compare [CALLS [SEED]]`: the proved library beside the original's text, where that is at hand, and beside a plain
//! reading of the rules; by default on a million random calls, with all short and boundary calls. Then its sheets beside
//! a plain reading, written and read, each on as many random calls and all boundary ones.

use compare::Library;

fn number(place: usize, default: u64) -> u64 {
    match std::env::args().nth(place) {
        None => default,
        Some(word) => word.parse().unwrap_or_else(|_| {
            eprintln!("compare: '{word}' is no number; usage: compare [CALLS [SEED]]");
            std::process::exit(2);
        }),
    }
}

fn main() {
    let (calls, seed) = (number(1, 1_000_000), number(2, 1));
    let sharing = oracle::compare::run(&Library, calls, seed);
    println!("{sharing}");
    let sheets = oracle::compare::sheets::run(vsss::entry::write_sheet, calls, seed);
    println!("{sheets}");
    let reading = oracle::compare::reading::run(vsss::entry::read_sheet, calls, seed);
    println!("{reading}");
    sharing.assert_clean();
    sheets.assert_clean();
    reading.assert_clean();
}
