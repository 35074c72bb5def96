//! Random calls: accepted ones, and ones damaged in up to three ways.

use super::boundaries::{DRAWN, repeated};
use super::{Call, LONG};
use crate::reference::MAX_SECRET;
use crate::{CombineCall, Random, Reference, SplitCall};

/// One random call.
pub fn random_call(random: &mut Random) -> Call {
    if random.once_in(2) {
        Call::Split(random_split(random))
    } else {
        Call::Combine(random_combine(random))
    }
}

/// Bounds of one call: rows, threshold and secret bytes. Most calls are small, so that a long run
/// tries many shapes; a few are as large as the work allows.
fn size(random: &mut Random) -> (usize, usize, usize) {
    match random.between(1, 1000) {
        1 => (255, 12, 64),
        2 => (8, 4, LONG),
        3 => (60, 60, 12),
        4..=60 => (24, 12, 48),
        _ => (7, 5, 9),
    }
}

fn random_split(random: &mut Random) -> SplitCall {
    let mut call = accepted_split(random);
    if random.once_in(3) {
        for _ in 0..random.between(1, 3) {
            damage_split(&mut call, random);
        }
    }
    call
}

fn accepted_split(random: &mut Random) -> SplitCall {
    let (most_rows, most_threshold, most_bytes) = size(random);
    let limit = random.between(2, most_rows);
    let threshold = random.between(2, limit.min(most_threshold));
    let secret = random.between(1, most_bytes);
    let mut ids = if random.once_in(8) {
        // Repeats are likely here, and split accepts them.
        (0..limit).map(|_| random.byte() | 1).collect()
    } else {
        random.distinct_ids(limit)
    };
    if random.once_in(4) {
        // More may be lent than are read.
        let more = random.between(1, 4);
        ids.extend(random.bytes(more));
    }
    let mut call = SplitCall {
        threshold,
        limit,
        secret: random.bytes(secret),
        ids,
        coefficients: Vec::new(),
        room: 0,
    };
    call.coefficients = random.bytes(call.coefficients_needed());
    call.room = call.bytes_written();
    if random.once_in(2) {
        call.room += random.between(1, 40);
    }
    call
}

fn damage_split(call: &mut SplitCall, random: &mut Random) {
    match random.between(1, 12) {
        1 => call.limit = 256 + random.between(0, 3) * 1000,
        2 => call.secret.clear(),
        3 => call.threshold = call.limit.saturating_add(random.between(1, 3)),
        4 => call.threshold = random.between(0, 1),
        5 => call.limit = random.between(0, 3),
        6 => call.ids.truncate(random.between(0, call.ids.len())),
        7 => set_somewhere(&mut call.ids, 0, random),
        8 => call.coefficients.push(random.byte()),
        9 => drop(call.coefficients.pop()),
        10 => call.room = call.room.saturating_sub(random.between(1, 45)),
        11 => call.room = 0,
        _ if random.once_in(20) => {
            call.secret = random.bytes(DRAWN);
            call.coefficients = random.bytes(call.coefficients_needed().min(1 << 16));
            call.secret = repeated(&call.secret, MAX_SECRET + 1);
            call.room = call.bytes_written().min(1 << 16);
        }
        _ => set_somewhere(&mut call.coefficients, 0, random),
    }
}

fn set_somewhere(bytes: &mut [u8], value: u8, random: &mut Random) {
    if !bytes.is_empty() {
        bytes[random.between(0, bytes.len() - 1)] = value;
    }
}

fn random_combine(random: &mut Random) -> CombineCall {
    let mut rows = if random.once_in(2) {
        some_rows_of_a_split(random)
    } else {
        random_rows(random)
    };
    let damaged = random.once_in(3);
    if damaged {
        for _ in 0..random.between(1, 3) {
            damage_rows(&mut rows, random);
        }
    }
    let values = rows.first().map_or(0, Vec::len).saturating_sub(1);
    let mut call = CombineCall::of_rows(&rows, values);
    if random.once_in(2) {
        call.room += random.between(1, 40);
    }
    if damaged {
        damage_combine(&mut call, random);
    }
    call
}

/// Rows of an accepted split, some or all of them, in any order.
fn some_rows_of_a_split(random: &mut Random) -> Vec<Vec<u8>> {
    let call = accepted_split(random);
    let mut out = vec![0; call.room];
    call.made_of(&Reference, &mut out);
    let mut rows: Vec<Vec<u8>> = out[..call.bytes_written()]
        .chunks_exact(call.secret.len() + 1)
        .map(<[u8]>::to_vec)
        .collect();
    random.shuffle(&mut rows);
    rows.truncate(random.between(2, call.limit));
    rows
}

pub(super) fn random_rows(random: &mut Random) -> Vec<Vec<u8>> {
    let (most_rows, _, most_bytes) = size(random);
    let count = random.between(2, most_rows);
    let values = random.between(1, most_bytes);
    let mut rows = Vec::with_capacity(count);
    for id in random.distinct_ids(count) {
        let mut row = random.bytes(values + 1);
        row[0] = id;
        rows.push(row);
    }
    rows
}

pub(super) fn damage_rows(rows: &mut Vec<Vec<u8>>, random: &mut Random) {
    if rows.is_empty() {
        return;
    }
    let [some, other] = [0; 2].map(|_| random.between(0, rows.len() - 1));
    match random.between(1, 9) {
        1 => set_id(&mut rows[some], 0),
        2 => rows[some] = rows[other].clone(),
        3 => {
            let id = rows[other].first().copied().unwrap_or(0);
            set_id(&mut rows[some], id);
        }
        4 => drop(rows[some].pop()),
        5 => rows[some].push(1),
        6 => rows.truncate(random.between(0, 1)),
        7 => rows.iter_mut().for_each(|row| row.truncate(1)),
        8 if random.once_in(20) => rows
            .iter_mut()
            .for_each(|row| row.resize(MAX_SECRET + 2, 3)),
        // Damage that nothing can notice: the answer is another secret.
        _ => {
            let values = rows[some].len().min(1);
            set_somewhere(&mut rows[some][values..], random.byte(), random);
        }
    }
}

fn set_id(row: &mut [u8], id: u8) {
    if let Some(first) = row.first_mut() {
        *first = id;
    }
}

fn damage_combine(call: &mut CombineCall, random: &mut Random) {
    match random.between(1, 10) {
        1 => call.rows.push(random.byte()),
        2 => drop(call.rows.pop()),
        3 => call.room = call.room.saturating_sub(random.between(1, 45)),
        4 => call.room = 0,
        5 if call.lengths.len() > 1 => {
            // The sum stays, the rows are unequal.
            let last = call.lengths.len() - 1;
            if call.lengths[last] > 0 {
                call.lengths[last] -= 1;
                call.lengths[0] += 1;
            }
        }
        6 if !call.lengths.is_empty() => call.lengths[0] = u32::MAX,
        7 => call.lengths.push(0),
        _ => {}
    }
}
