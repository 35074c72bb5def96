//! Nothing secret is left in the memory of the process: its own memory is searched for the bytes.

use std::fs::{self, File};
use std::io::{Read, Seek, SeekFrom, Write};
use std::ops::Range;

use vsss::Secret;

const LEN: usize = 96;

/// The memory manager writes over the start of what is given back; the search is for bytes behind
/// it.
const SOUGHT: Range<usize> = 48..80;

/// Byte `place` of the pattern `kind`. The search computes it anew, so that it does not find
/// itself.
fn pattern(kind: usize, place: usize) -> u8 {
    (((place + 3) * (place + 7) * (2 * kind + 5)) >> 2) as u8
}

fn fill(bytes: &mut [u8], kind: usize) {
    for (place, byte) in bytes.iter_mut().enumerate() {
        *byte = pattern(kind, place);
    }
}

fn writable_ranges() -> Vec<Range<u64>> {
    let maps = fs::read_to_string("/proc/self/maps").unwrap();
    let writable = maps.lines().filter(|line| line.contains(" rw"));
    writable.filter_map(range_of_line).collect()
}

fn range_of_line(line: &str) -> Option<Range<u64>> {
    let (start, end) = line.split_whitespace().next()?.split_once('-')?;
    let number = |text| u64::from_str_radix(text, 16).ok();
    Some(number(start)?..number(end)?)
}

fn holds(memory: &[u8], byte_at: &dyn Fn(usize) -> u8) -> bool {
    let starts = |window: &[u8]| {
        let mut sought = SOUGHT.map(byte_at);
        window.iter().all(|&byte| Some(byte) == sought.next())
    };
    memory.windows(SOUGHT.len()).any(starts)
}

/// Whether the pattern stands anywhere in memory that this process can write.
fn is_in_memory(kind: usize) -> bool {
    memory_holds(&|place| pattern(kind, place))
}

/// Whether its text does, with two digits a byte.
fn is_in_memory_as_hex(kind: usize) -> bool {
    memory_holds(&|place| hex_digit_of_pattern(kind, place))
}

fn hex_digit_of_pattern(kind: usize, place: usize) -> u8 {
    let byte = pattern(kind, place / 2);
    let digit = if place % 2 == 0 { byte / 16 } else { byte % 16 };
    b"0123456789abcdef"[usize::from(digit)]
}

fn memory_holds(byte_at: &dyn Fn(usize) -> u8) -> bool {
    let mut memory = File::open("/proc/self/mem").unwrap();
    writable_ranges().into_iter().any(|range| {
        // Wiped like the rest, since what is found is copied here.
        let mut bytes = Secret::zeroed((range.end - range.start) as usize);
        memory.seek(SeekFrom::Start(range.start)).unwrap();
        // Some ranges, such as those of the kernel, cannot be read.
        memory.read_exact(&mut bytes).is_ok() && holds(&bytes, byte_at)
    })
}

/// One after another: each search copies the memory of all.
#[test]
fn nothing_secret_is_left_in_memory() {
    what_is_dropped_is_gone();
    the_search_sees_what_is_not_wiped();
    split_and_combine_leave_nothing_behind();
    sheets_leave_nothing_behind();
}

fn what_is_dropped_is_gone() {
    let secret = 1;
    let mut kept = Secret::zeroed(LEN);
    fill(&mut kept, secret);
    assert!(is_in_memory(secret), "the search must see what is kept");
    drop(kept);
    assert!(!is_in_memory(secret), "a dropped secret is still in memory");
}

fn the_search_sees_what_is_not_wiped() {
    let plain = 2;
    let mut bytes = vec![0; LEN];
    fill(&mut bytes, plain);
    // Bytes that nobody reads would not be written at all.
    File::create("/dev/null")
        .unwrap()
        .write_all(&bytes)
        .unwrap();
    drop(bytes);
    assert!(is_in_memory(plain), "the search would see nothing at all");
}

fn split_and_combine_leave_nothing_behind() {
    let (kind, other) = (3, 4);
    let mut secret = Secret::zeroed(LEN);
    let mut coefficients = Secret::zeroed(LEN);
    fill(&mut secret, kind);
    fill(&mut coefficients, other);
    // Without its first degree a row is the secret itself: the rows, too, show the pattern.
    let rows = vsss::split(2, &[1, 2], &secret, &[0; LEN]).unwrap();
    let mixed = vsss::split(2, &[1, 2], &secret, &coefficients).unwrap();
    drop(vsss::combine(&rows).unwrap());
    drop(vsss::combine(&mixed).unwrap());
    drop((rows, mixed, secret, coefficients));
    assert!(!is_in_memory(kind), "the secret is still in memory");
    assert!(!is_in_memory(other), "the coefficients are still in memory");
}

fn sheets_leave_nothing_behind() {
    let kind = 5;
    let mut row = Secret::zeroed(1 + LEN);
    row[0] = 1;
    fill(&mut row[1..], kind);
    let text = vsss::sheet(2, &[&row]).unwrap();
    assert!(
        is_in_memory_as_hex(kind),
        "the search must see what is kept"
    );
    drop(row);
    assert!(!is_in_memory(kind), "the row is in memory after writing it");
    let sheet = vsss::read_sheet(&text).unwrap();
    assert!(is_in_memory(kind), "the row is read");
    // A text that stops being a sheet behind its first row.
    assert!(vsss::read_sheet(&text[..text.len() - 1]).is_err());
    drop((text, sheet));
    assert!(!is_in_memory(kind), "the row is still in memory");
    assert!(
        !is_in_memory_as_hex(kind),
        "the row's text is still in memory"
    );
}
