//! Times of a pair, taken in turns.

use std::time::{Duration, Instant};

use crate::cases::Pair;

/// A batch lasts at least this long, so that reading the clock weighs nothing.
pub const BATCH: Duration = Duration::from_millis(5);

/// The rounds of a case last at most about this long, unless the fewest last longer.
const CASE: Duration = Duration::from_secs(6);

pub const FEWEST_ROUNDS: usize = 3;
pub const MOST_ROUNDS: usize = 101;

/// Medians of the rounds, in seconds a call.
#[derive(Clone, Copy)]
pub struct Times {
    pub ours: f64,
    pub other: f64,
    pub rounds: usize,
}

/// Times both in turns, so that what disturbs the machine for a while disturbs both.
pub fn race(pair: &mut dyn Pair) -> Times {
    let (our_calls, our_time) = batch_of(|| pair.ours());
    let (other_calls, other_time) = batch_of(|| pair.other());
    let rounds = rounds_of(our_time + other_time);
    let mut ours = Vec::new();
    let mut other = Vec::new();
    for _ in 0..rounds {
        ours.push(seconds_a_call(our_calls, || pair.ours()));
        other.push(seconds_a_call(other_calls, || pair.other()));
    }
    Times {
        ours: median(&mut ours),
        other: median(&mut other),
        rounds,
    }
}

/// How often the time of `part` the time of `whole` is, where so many calls of `part` do as much work
/// as one of `whole`.
///
/// Both are timed in turns, in batches of the same work, and the least of each counts: what disturbs
/// the machine only adds.
pub fn times_as_long(mut whole: impl FnMut(), mut part: impl FnMut(), parts: u32) -> f64 {
    let (calls, time) = batch_of(&mut whole);
    let rounds = 0..rounds_of(2 * time);
    let times = rounds.map(|_| {
        let whole = time_of(calls, &mut whole);
        (whole, time_of(parts * calls, &mut part))
    });
    let longest = (Duration::MAX, Duration::MAX);
    let (whole, part) = times.fold(longest, |least, round| {
        (least.0.min(round.0), least.1.min(round.1))
    });
    whole.as_secs_f64() / part.as_secs_f64()
}

/// How many calls make a batch, and how long it lasts. Finding it also warms the caches.
///
/// The lesser of two times counts: a pause of the machine would make the batch too small.
fn batch_of(mut call: impl FnMut()) -> (u32, Duration) {
    let mut calls = 1;
    loop {
        let time = time_of(calls, &mut call).min(time_of(calls, &mut call));
        if time >= BATCH {
            return (calls, time);
        }
        calls *= 2;
    }
}

fn time_of(calls: u32, mut call: impl FnMut()) -> Duration {
    let start = Instant::now();
    for _ in 0..calls {
        call();
    }
    start.elapsed()
}

fn seconds_a_call(calls: u32, call: impl FnMut()) -> f64 {
    time_of(calls, call).as_secs_f64() / f64::from(calls)
}

/// How many rounds a case has, given how long one lasts: an odd number, which has a middle.
fn rounds_of(round: Duration) -> usize {
    let fitting = CASE.as_nanos() / round.as_nanos().max(1);
    (fitting as usize).clamp(FEWEST_ROUNDS, MOST_ROUNDS) | 1
}

/// # Panics
/// Where there is no number.
fn median(numbers: &mut [f64]) -> f64 {
    numbers.sort_by(f64::total_cmp);
    let middle = numbers.len() / 2;
    if numbers.len() % 2 == 1 {
        numbers[middle]
    } else {
        (numbers[middle - 1] + numbers[middle]) / 2.0
    }
}

#[cfg(test)]
mod tests {
    use super::*;

    #[test]
    fn the_median_is_the_middle() {
        assert_eq!(median(&mut [5.0]), 5.0);
        assert_eq!(median(&mut [9.0, 1.0, 5.0]), 5.0);
        assert_eq!(median(&mut [9.0, 1.0, 5.0, 6.0]), 5.5);
    }

    #[test]
    fn thrice_the_work_takes_thrice_the_time() {
        let sum = |count: u64| {
            let add = |sum: u64, n| std::hint::black_box(sum ^ n);
            std::hint::black_box((0..count).fold(0, add));
        };
        let thrice = times_as_long(|| sum(480_000), || sum(10_000), 16);
        assert!((1.5..6.0).contains(&thrice), "{thrice}");
    }

    #[test]
    fn rounds_are_odd_and_bounded() {
        assert_eq!(rounds_of(CASE * 2), 3);
        assert_eq!(rounds_of(CASE / 20), 21);
        assert_eq!(rounds_of(CASE / 1_000), 101);
        assert_eq!(rounds_of(Duration::ZERO), 101);
    }
}
