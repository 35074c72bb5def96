//! Document 01's bounds from either side, and its refusals in every combination.

use super::{Call, LONG, LengthBytesCall};
use crate::reference::{MAX_LIMIT, MAX_SECRET};
use crate::{CombineCall, Random, SplitCall};

/// Of a secret around the limit so many bytes are drawn, and then repeated: what is drawn for the
/// calls behind it, and with it the stored sample, does not hang on the limit.
pub(super) const DRAWN: usize = LONG + 1;

/// Every boundary call. They do not depend on a seed.
pub fn boundary_calls() -> Vec<Call> {
    let mut random = Random::from_seed(0);
    let mut splits = split_bounds(&mut random);
    splits.extend(split_refusals_combined(&mut random));
    let mut combines = combine_bounds(&mut random);
    combines.extend(combine_refusals_combined(&mut random));
    let bytes = length_byte_bounds(&mut random);
    splits.extend(longest_splits(&mut random));
    combines.extend(longest_combines(&mut random));
    let splits = splits.into_iter().map(Call::Split);
    let combines = combines.into_iter().map(Call::Combine);
    let bytes = bytes.into_iter().map(Call::LengthBytes);
    splits.chain(combines).chain(bytes).collect()
}

/// A split that nothing refuses: identifiers 1 to n.
fn accepted_split(random: &mut Random, threshold: usize, limit: usize, secret: usize) -> SplitCall {
    let mut call = SplitCall {
        threshold,
        limit,
        secret: random.bytes(secret),
        ids: (1..=255).take(limit).collect(),
        coefficients: Vec::new(),
        room: 0,
    };
    fit(&mut call, random);
    call
}

/// Gives a call as many coefficients and as much room as it needs, within reason.
fn fit(call: &mut SplitCall, random: &mut Random) {
    call.coefficients = random.bytes(call.coefficients_needed().min(1 << 20));
    call.room = call.bytes_written().min(1 << 21);
}

/// The bytes over and over, up to a length.
pub(super) fn repeated(bytes: &[u8], len: usize) -> Vec<u8> {
    bytes.iter().copied().cycle().take(len).collect()
}

/// A split that nothing but its length may refuse, for a secret around the limit.
fn long_split(random: &mut Random, threshold: usize, limit: usize, secret: usize) -> SplitCall {
    let mut call = accepted_split(random, threshold, limit, DRAWN);
    call.secret = repeated(&call.secret, secret);
    let needed = call.coefficients_needed().min(3 * MAX_SECRET);
    call.coefficients = repeated(&call.coefficients, needed);
    call.room = call.bytes_written().min(1 << 21);
    call
}

/// The longest secret and its neighbours.
fn longest_splits(random: &mut Random) -> Vec<SplitCall> {
    let lengths = [MAX_SECRET - 1, MAX_SECRET, MAX_SECRET + 1];
    let mut calls = lengths
        .map(|secret| long_split(random, 2, 3, secret))
        .to_vec();
    calls.push(long_split(random, 4, 4, MAX_SECRET));
    calls
}

fn split_bounds(random: &mut Random) -> Vec<SplitCall> {
    let mut calls = Vec::new();
    // Thresholds and limits around every bound, with a secret and without one.
    let numbers = [0, 1, 2, 3, 254, 255, 256, 257, 65_536, usize::MAX];
    for threshold in numbers {
        for limit in numbers {
            for secret in 0..=2 {
                calls.push(accepted_split(random, threshold, limit, secret));
            }
        }
    }
    let around_blocks = [1, 15, 16, 17, 63, 64, 65, 127, 128, 129];
    for secret in around_blocks.into_iter().chain(LONG - 1..=LONG + 1) {
        calls.push(accepted_split(random, 2, 3, secret));
        calls.push(accepted_split(random, 5, 5, secret));
    }
    calls.push(accepted_split(random, 2, MAX_LIMIT, LONG));
    calls.push(accepted_split(random, 128, 255, 33));

    for threshold in 2..=4 {
        calls.extend(around(&accepted_split(random, threshold, 5, 3), random));
    }
    for fill in [0, 255] {
        let mut call = accepted_split(random, 4, 6, 9);
        call.coefficients.fill(fill);
        calls.push(call);
    }
    // A zero coefficient of the highest degree.
    let mut call = accepted_split(random, 3, 4, 2);
    call.coefficients[1] = 0;
    calls.push(call);
    calls
}

/// The call with each buffer one shorter and one longer, and each identifier zero or repeated.
fn around(call: &SplitCall, random: &mut Random) -> Vec<SplitCall> {
    let with = |change: &dyn Fn(&mut SplitCall)| {
        let mut changed = call.clone();
        change(&mut changed);
        changed
    };
    let mut calls = vec![
        with(&|c| c.room -= 1),
        with(&|c| c.room += 1),
        with(&|c| c.room = 0),
        with(&|c| c.coefficients.truncate(c.coefficients.len() - 1)),
        with(&|c| c.coefficients.push(1)),
        with(&|c| c.coefficients.clear()),
        with(&|c| c.ids.push(0)),
        with(&|c| c.ids.extend([1; 300])),
        with(&|c| c.ids.fill(7)),
    ];
    for place in 0..call.limit {
        calls.push(with(&|c| c.ids.truncate(place)));
        calls.push(with(&|c| c.ids[place] = 0));
        calls.push(with(&|c| c.ids[place..].fill(0)));
        // The list ends at once after a zero, and just before one.
        calls.push(with(&|c| {
            c.ids.truncate(place + 1);
            c.ids[place] = 0;
        }));
        let byte = random.byte();
        calls.push(with(&|c| c.ids[place] = byte));
    }
    calls
}

/// One call for each set of reasons to refuse, so that their order shows.
fn split_refusals_combined(random: &mut Random) -> Vec<SplitCall> {
    let mut calls = Vec::new();
    for reasons in 0..1 << 10 {
        let holds = |reason: u32| reasons >> reason & 1 == 1;
        let limit = match (holds(0), holds(2) && holds(3)) {
            (true, _) => 256,
            (false, true) => 0,
            (false, false) => 3,
        };
        let threshold = match (holds(2), holds(3)) {
            (_, true) => 1,
            (true, false) => limit + 1,
            (false, false) => 2,
        };
        let mut call = match (holds(1), holds(6)) {
            (true, _) => accepted_split(random, threshold, limit, 0),
            (false, true) => long_split(random, threshold, limit, MAX_SECRET + 1),
            (false, false) => accepted_split(random, threshold, limit, 2),
        };
        if limit > 255 {
            // Never written to; a large buffer would only take time.
            call.room = 64;
        }
        if holds(4) {
            call.ids.pop();
        }
        if holds(5) {
            let place = if holds(9) { 0 } else { call.ids.len() / 2 };
            call.ids.resize(call.ids.len().max(1), 1);
            call.ids[place] = 0;
        }
        if holds(7) {
            call.coefficients.push(1);
        }
        if holds(8) {
            call.room = call.room.saturating_sub(1);
        }
        calls.push(call);
    }
    calls
}

/// Rows with identifiers 1, 2, .. and random values.
pub(super) fn plain_rows(random: &mut Random, count: usize, values: usize) -> Vec<Vec<u8>> {
    (0..count)
        .map(|row| {
            let mut bytes = random.bytes(values + 1);
            bytes[0] = (row % 255 + 1) as u8;
            bytes
        })
        .collect()
}

/// The same, with so many values around the limit, or over it.
pub(super) fn long_rows(random: &mut Random, count: usize, values: usize) -> Vec<Vec<u8>> {
    let rows = plain_rows(random, count, DRAWN).into_iter();
    rows.map(|row| [&row[..1], &repeated(&row[1..], values)].concat())
        .collect()
}

/// The longest secret and its neighbours, each with exactly its room and with a byte less.
fn longest_combines(random: &mut Random) -> Vec<CombineCall> {
    let mut calls = Vec::new();
    for values in [MAX_SECRET - 1, MAX_SECRET, MAX_SECRET + 1] {
        for room in [values, values - 1] {
            let rows = long_rows(random, 2, values);
            calls.push(CombineCall::of_rows(&rows, room));
        }
    }
    calls
}

fn combine_bounds(random: &mut Random) -> Vec<CombineCall> {
    let mut calls = Vec::new();
    for (count, values) in [
        (2, LONG),
        (2, LONG + 1),
        (3, 1),
        (254, 3),
        (255, 3),
        (255, 64),
        (256, 3),
        (257, 1),
        (600, 2),
        (65_535, 1),
    ] {
        for room in [values, values - 1, values + 1, 0] {
            let rows = plain_rows(random, count, values);
            calls.push(CombineCall::of_rows(&rows, room));
        }
    }
    // Many rows: the first zero wins wherever it stands, though a repeat comes before it.
    for place in [0, 1, 254, 255, 599] {
        let mut rows = plain_rows(random, 600, 2);
        rows[place][0] = 0;
        calls.push(CombineCall::of_rows(&rows, 2));
    }
    // No rows and one row, with an empty and with a full storage.
    for (rows, lengths) in [
        (vec![], vec![]),
        (vec![1], vec![]),
        (vec![], vec![0]),
        (vec![1], vec![1]),
        (vec![1, 2], vec![2]),
        (vec![1, 2], vec![1]),
        (vec![1, 2], vec![u32::MAX]),
        (vec![], vec![0, 0]),
        (vec![1, 2], vec![1, 1]),
        (vec![1, 2, 3], vec![1, 2]),
        (vec![1, 2, 3], vec![2, 1]),
        (vec![1, 2], vec![2, 0]),
        (vec![1, 2], vec![0, 2]),
        (vec![1, 9, 2, 9], vec![u32::MAX, 5]),
    ] {
        let room = 4;
        calls.push(CombineCall {
            rows,
            lengths,
            room,
        });
    }
    calls
}

/// One call for each set of reasons to refuse, so that their order shows.
fn combine_refusals_combined(random: &mut Random) -> Vec<CombineCall> {
    let mut calls = Vec::new();
    for reasons in 0..1 << 9 {
        let holds = |reason: u32| reasons >> reason & 1 == 1;
        let count = if holds(1) { 1 } else { 5 };
        let mut rows = match holds(6) {
            true => long_rows(random, count, MAX_SECRET + 1),
            false => plain_rows(random, count, 3),
        };
        let values = rows[0].len() - 1;
        if holds(5) {
            // A repeat before the zero, and one around it.
            let place = if holds(8) { 1 } else { count - 1 };
            rows[place % count][0] = 1;
        }
        if holds(4) {
            rows[count / 2][0] = 0;
        }
        if holds(2) {
            rows[0].truncate(1);
        }
        if holds(3) {
            rows[count - 1].push(1);
        }
        let room = if holds(7) { values - 1 } else { values };
        let mut call = CombineCall::of_rows(&rows, room);
        if holds(0) {
            if holds(8) {
                call.rows.pop();
            } else {
                call.rows.push(1);
            }
        }
        calls.push(call);
    }
    calls
}

/// Lists of lengths that are not of whole fours, and of one row too many to cross.
fn length_byte_bounds(random: &mut Random) -> Vec<LengthBytesCall> {
    let mut calls = Vec::new();
    let plain = CombineCall::of_rows(&plain_rows(random, 3, 4), 4);
    for count in 0..=16 {
        let mut lengths = plain.lengths_as_bytes();
        lengths.resize(count, 0);
        calls.push(LengthBytesCall {
            rows: plain.rows.clone(),
            lengths,
            room: plain.room,
        });
    }
    for rows in [65_535, 65_536, 65_537] {
        let many = CombineCall::of_rows(&plain_rows(random, rows, 1), 1);
        calls.push(LengthBytesCall {
            lengths: many.lengths_as_bytes(),
            rows: many.rows,
            room: 1,
        });
    }
    calls
}
