//! Short calls, exhaustively: every shape over a few identifiers, and every value at one shape.

use super::Call;
use crate::{CombineCall, Random, SplitCall};

/// Every short call. The seed fills what is not enumerated.
pub fn short_calls(seed: u64) -> impl Iterator<Item = Call> {
    let splits = split_shapes(seed).chain(split_values());
    let combines = combine_shapes(seed)
        .chain(combine_pairs(seed))
        .chain(combine_triples(seed))
        .chain(combine_fours(seed));
    splits.map(Call::Split).chain(combines.map(Call::Combine))
}

/// All lists of length up to `longest` over the given items.
fn lists<T: Copy>(items: &[T], longest: usize) -> Vec<Vec<T>> {
    let mut all = vec![Vec::new()];
    let mut last = all.clone();
    for _ in 0..longest {
        last = last
            .iter()
            .flat_map(|list| {
                items.iter().map(move |&item| {
                    let mut longer = list.clone();
                    longer.push(item);
                    longer
                })
            })
            .collect();
        all.extend(last.iter().cloned());
    }
    all
}

/// Every threshold and limit up to 4, every secret length up to 2, every list of up to 4
/// identifiers out of 0, 1, 2 and 255.
fn split_shapes(seed: u64) -> impl Iterator<Item = SplitCall> {
    let mut random = Random::from_seed(seed);
    lists(&[0, 1, 2, 255], 4).into_iter().flat_map(move |ids| {
        let mut calls = Vec::with_capacity(75);
        for threshold in 0..=4 {
            for limit in 0..=4 {
                for secret in 0..=2 {
                    let mut call = SplitCall {
                        threshold,
                        limit,
                        secret: random.bytes(secret),
                        ids: ids.clone(),
                        coefficients: Vec::new(),
                        room: 0,
                    };
                    call.coefficients = random.bytes(call.coefficients_needed());
                    call.room = call.bytes_written() + 3;
                    calls.push(call);
                }
            }
        }
        calls
    })
}

/// At threshold 2, every secret byte with every coefficient at every identifier.
fn split_values() -> impl Iterator<Item = SplitCall> {
    (0..=255).map(|coefficient| SplitCall {
        threshold: 2,
        limit: 255,
        secret: (0..=255).collect(),
        ids: (1..=255).collect(),
        coefficients: vec![coefficient; 256],
        room: 255 * 257 + 1,
    })
}

/// Up to 3 rows of up to 3 bytes, every list of identifiers out of 0, 1 and 2, with the storage
/// right, one byte short and one byte long.
fn combine_shapes(seed: u64) -> impl Iterator<Item = CombineCall> {
    let mut random = Random::from_seed(seed);
    let identifiers = lists(&[0u8, 1, 2], 3);
    lists(&[0u32, 1, 2, 3], 3)
        .into_iter()
        .flat_map(move |lengths| {
            let mut calls = Vec::new();
            for ids in identifiers.iter().filter(|ids| ids.len() == lengths.len()) {
                let rows: Vec<Vec<u8>> = ids
                    .iter()
                    .zip(&lengths)
                    .map(|(&id, &length)| {
                        let mut row = random.bytes(length as usize);
                        if let Some(first) = row.first_mut() {
                            *first = id;
                        }
                        row
                    })
                    .collect();
                let right = CombineCall::of_rows(&rows, 4);
                let mut short = right.clone();
                short.rows.pop();
                let mut long = right.clone();
                long.rows.push(1);
                calls.extend([right, short, long]);
            }
            calls
        })
}

/// Two rows with every pair of identifiers, zeros and repeats included.
fn combine_pairs(seed: u64) -> impl Iterator<Item = CombineCall> {
    let mut random = Random::from_seed(seed);
    (0..=u16::MAX).map(move |pair| rows_with_ids(&pair.to_be_bytes(), 2, &mut random))
}

/// Three rows with every triple of identifiers below 16.
fn combine_triples(seed: u64) -> impl Iterator<Item = CombineCall> {
    let mut random = Random::from_seed(seed);
    (0..1 << 12).map(move |triple: u16| {
        let ids = [0, 4, 8].map(|bit| (triple >> bit & 15) as u8);
        rows_with_ids(&ids, 1, &mut random)
    })
}

/// Four rows with every list of identifiers below 8: the fewest in which one repeat can lie around
/// another.
fn combine_fours(seed: u64) -> impl Iterator<Item = CombineCall> {
    let mut random = Random::from_seed(seed);
    (0..1 << 12).map(move |four: u16| {
        let ids = [0, 3, 6, 9].map(|bit| (four >> bit & 7) as u8);
        rows_with_ids(&ids, 1, &mut random)
    })
}

fn rows_with_ids(ids: &[u8], values: usize, random: &mut Random) -> CombineCall {
    let rows: Vec<Vec<u8>> = ids
        .iter()
        .map(|&id| {
            let mut row = random.bytes(values + 1);
            row[0] = id;
            row
        })
        .collect();
    CombineCall::of_rows(&rows, values)
}
