//! Sheets to compare: document 02's bounds from either side, its refusals in every combination, and
//! random calls.

use super::LONG;
use super::boundaries::{long_rows, plain_rows};
use super::random_calls::{damage_rows, random_rows};
use crate::reference::{MAX_LIMIT, MAX_SECRET};
use crate::{Random, SheetCall};

/// Every boundary call. They do not depend on a seed.
pub fn sheet_boundary_calls() -> Vec<SheetCall> {
    let mut random = Random::from_seed(0);
    let mut calls = shapes(&mut random);
    calls.extend(texts(&mut random));
    calls.extend(identifiers(&mut random));
    calls.extend(lengths(&mut random));
    calls.extend(refusals_combined(&mut random));
    calls
}

/// The call with exactly the room that it needs, and with other rooms.
fn in_rooms(call: SheetCall) -> impl Iterator<Item = SheetCall> {
    let exact = call.room;
    let rooms = [exact, exact + 1, exact + 40, exact.saturating_sub(1), 0];
    rooms.into_iter().map(move |room| SheetCall {
        room,
        ..call.clone()
    })
}

/// Thresholds, counts of rows and of values around every bound, and where a number gains a digit.
fn shapes(random: &mut Random) -> Vec<SheetCall> {
    let mut calls = Vec::new();
    let mut add = |threshold, count, values| {
        let rows = plain_rows(random, count, values);
        calls.extend(in_rooms(SheetCall::of_rows(threshold, &rows)));
    };
    for threshold in [0, 1, 2, 9, 10, 99, 100, 255, 256, usize::MAX] {
        for count in 0..=4 {
            for values in [1, 2, 15, 16, 17] {
                add(threshold, count, values);
            }
        }
    }
    for threshold in [1, 2, 255, 256] {
        for count in [9, 10, 99, 100, 254, 255, 256, 600] {
            add(threshold, count, 3);
        }
        for values in [9, 10, 99, 100, 999, 1000, 9999, 10_000] {
            add(threshold, 2, values);
        }
    }
    // The longest rows take time: one of them, and in two rooms, is enough.
    for values in [MAX_SECRET - 1, MAX_SECRET, MAX_SECRET + 1] {
        let call = SheetCall::of_rows(128, &plain_rows(random, 1, values));
        calls.extend(in_rooms(call).step_by(3).take(2));
    }
    calls.push(SheetCall::of_rows(
        128,
        &plain_rows(random, MAX_LIMIT, LONG),
    ));
    calls
}

/// Every identifier, and every value, in each place of a pair.
fn texts(random: &mut Random) -> Vec<SheetCall> {
    let every: Vec<u8> = (0..=255).collect();
    let mut calls: Vec<SheetCall> = every
        .iter()
        .map(|&id| SheetCall::of_rows(2, &[vec![id, random.byte()]]))
        .collect();
    let values = |id: u8, values: &[u8]| [&[id], values].concat();
    let reversed: Vec<u8> = every.iter().rev().copied().collect();
    let both = [values(3, &every), values(200, &reversed)];
    calls.push(SheetCall::of_rows(2, &both));
    calls
}

/// Zeros and repeats at every place of a few rows, and among many.
fn identifiers(random: &mut Random) -> Vec<SheetCall> {
    let mut calls = Vec::new();
    for count in 1..=5 {
        for one in 0..count {
            for other in 0..count {
                let mut rows = plain_rows(random, count, 2);
                rows[one][0] = rows[other][0];
                calls.push(SheetCall::of_rows(2, &rows));
                // The zero wins, wherever it stands.
                rows[other][0] = 0;
                calls.push(SheetCall::of_rows(2, &rows));
            }
        }
    }
    // Two repeats, one around the other and one behind the other.
    for ids in [[5, 7, 7, 5], [5, 7, 5, 7], [5, 5, 7, 7], [7, 7, 7, 7]] {
        calls.push(SheetCall::of_rows(2, &ids.map(|id| vec![id, 9])));
    }
    for place in [0, 1, 254, 255, 256, 599] {
        let mut rows = plain_rows(random, 600, 1);
        rows[place][0] = 0;
        calls.push(SheetCall::of_rows(2, &rows));
    }
    calls
}

/// Rows that are short or unequal, and lists of lengths that are none.
fn lengths(random: &mut Random) -> Vec<SheetCall> {
    let of = |rows: &[u8], lengths: &[u32]| SheetCall {
        room: 64,
        ..SheetCall::of_storage(2, rows.to_vec(), lengths)
    };
    let mut calls = vec![
        of(&[], &[]),
        of(&[1], &[]),
        of(&[], &[0]),
        of(&[1], &[1]),
        of(&[1, 9], &[1]),
        of(&[1, 9], &[2]),
        of(&[1, 9], &[3]),
        of(&[1, 9], &[u32::MAX]),
        of(&[1, 9], &[2, 0]),
        of(&[1, 9], &[0, 2]),
        of(&[1, 9], &[1, 1]),
        of(&[1, 9, 2], &[2, 1]),
        of(&[1, 2, 9], &[1, 2]),
        of(&[1, 9, 2, 9, 9], &[2, 3]),
        of(&[1, 9, 2, 9, 3, 9], &[2, 1, 3]),
        // Their sum is 4, were it taken modulo 2^32.
        of(&[1, 9, 2, 9], &[u32::MAX, 5]),
        of(&[1, 9, 2, 9], &[2, 2, 0x8000_0000, 0x8000_0000]),
    ];
    let plain = SheetCall::of_rows(2, &plain_rows(random, 3, 4));
    for count in 0..=16 {
        let mut call = plain.clone();
        call.lengths.resize(count, 0);
        calls.push(call);
    }
    for count in [65_535, 65_536, 65_537] {
        calls.push(of(&vec![1; 2 * count], &vec![2; count]));
        calls.push(of(&[], &vec![0; count]));
    }
    calls
}

/// One call for each set of reasons to refuse, so that their order shows.
fn refusals_combined(random: &mut Random) -> Vec<SheetCall> {
    let mut calls = Vec::new();
    for reasons in 0..1u32 << 10 {
        let holds = |reason: u32| reasons >> reason & 1 == 1;
        let count = if holds(1) { 0 } else { 4 };
        // Long rows take time: with at most three reasons besides, and with all.
        let others = (reasons & !(1 << 6)).count_ones();
        let mut rows = match holds(6) && (others <= 3 || others == 9) {
            true => long_rows(random, count, MAX_SECRET + 1),
            false => plain_rows(random, count, 3),
        };
        if let [first, second, third, last] = rows.as_mut_slice() {
            if holds(5) {
                last[0] = if holds(4) { first[0] } else { second[0] };
            }
            if holds(4) {
                third[0] = 0;
            }
            if holds(2) {
                first.truncate(1);
            }
            if holds(3) {
                last.push(1);
            }
        }
        let threshold = match (holds(7), holds(8)) {
            (true, true) => usize::MAX,
            (true, false) => 1,
            (false, true) => 256,
            (false, false) => 2,
        };
        let mut call = SheetCall::of_rows(threshold, &rows);
        call.room = match (call.room, holds(9)) {
            // Refused for another reason; any room will do.
            (0, false) => 64,
            (0, true) => 0,
            (exact, false) => exact,
            (exact, true) => exact - 1,
        };
        if holds(0) {
            call.rows.push(1);
        }
        calls.push(call);
    }
    calls
}

/// A random call that is accepted, with exactly the room that it needs.
pub fn random_whole_sheet(random: &mut Random) -> SheetCall {
    let rows = some_rows(random);
    SheetCall::of_rows(random.between(2, 255), &rows)
}

fn some_rows(random: &mut Random) -> Vec<Vec<u8>> {
    let mut rows = random_rows(random);
    rows.truncate(random.between(1, rows.len()));
    rows
}

/// One random call; a third are damaged in up to three ways.
pub fn random_sheet_call(random: &mut Random) -> SheetCall {
    let mut rows = some_rows(random);
    let damaged = random.once_in(3);
    if damaged {
        for _ in 0..random.between(0, 2) {
            damage_rows(&mut rows, random);
        }
    }
    let mut call = SheetCall::of_rows(random.between(2, 255), &rows);
    if random.once_in(2) {
        call.room += random.between(1, 40);
    }
    if damaged {
        damage(&mut call, random);
    }
    call
}

fn damage(call: &mut SheetCall, random: &mut Random) {
    match random.between(1, 12) {
        1 => call.threshold = random.between(0, 1),
        2 => call.threshold = random.between(256, 1000),
        3 => call.threshold = random.word() as usize,
        4 => call.room = call.room.saturating_sub(random.between(1, 45)),
        5 => call.room = 0,
        6 => call.rows.push(random.byte()),
        7 => drop(call.rows.pop()),
        8 => call.lengths.push(random.byte()),
        9 => drop(call.lengths.pop()),
        10 => call.lengths.extend([0; 4]),
        // Some length has another byte, mostly a huge one.
        11 if !call.lengths.is_empty() => {
            let place = random.between(0, call.lengths.len() - 1);
            call.lengths[place] = random.byte();
        }
        _ => {}
    }
}
