//! The stored sample: it has what it should, the plain reading gives its answers, a wrong
//! implementation does not.

use oracle::generate::LONG;
use oracle::sample::{COMBINE, SPLIT, combine_records, replay, split_records};
use oracle::{Outcome, reference};

#[test]
fn the_plain_reading_gives_the_same_answers() {
    let replayed = replay(reference::split, reference::combine).unwrap();
    assert!(replayed.split >= 500, "{replayed:?}");
    assert!(replayed.combine >= 300, "{replayed:?}");
}

#[test]
fn every_refusal_of_the_original_is_there() {
    let splits = split_records(SPLIT).unwrap();
    for number in 1..=6 {
        let has = splits.iter().any(|(_, (_, answer))| *answer == Err(number));
        assert!(has, "split {number}");
    }
    let combines = combine_records(COMBINE).unwrap();
    for number in [4, 6, 7, 8] {
        let has = combines
            .iter()
            .any(|(_, (_, answer))| *answer == Err(number));
        assert!(has, "combine {number}");
    }
}

#[test]
fn the_bounds_are_there() {
    let splits = split_records(SPLIT).unwrap();
    for bound in [(2, 255, 1), (255, 255, 1), (2, 3, LONG)] {
        let has = splits.iter().any(|(_, (call, answer))| {
            (call.threshold, call.limit, call.secret.len()) == bound && answer.is_ok()
        });
        assert!(has, "{bound:?}");
    }
    let combines = combine_records(COMBINE).unwrap();
    for bound in [(2, LONG), (255, 3)] {
        let has = combines.iter().any(|(_, (call, answer))| {
            let written = answer.as_ref().map_or(0, Vec::len);
            (call.lengths.len(), written) == bound
        });
        assert!(has, "{bound:?}");
    }
}

#[test]
fn the_files_are_small() {
    assert!(SPLIT.len() < 200_000);
    assert!(COMBINE.len() < 200_000);
}

#[test]
fn a_wrong_byte_is_found() {
    let found = replay(
        |threshold, limit, secret, ids, coefficients, out| {
            let outcome = reference::split(threshold, limit, secret, ids, coefficients, out);
            if let Outcome::Done(count) = outcome {
                out[count - 1] ^= 1;
            }
            outcome
        },
        reference::combine,
    );
    assert!(found.unwrap_err().contains("split.txt"));
}

#[test]
fn a_byte_behind_the_secret_is_found() {
    let found = replay(reference::split, |rows, lengths, out| {
        let outcome = reference::combine(rows, lengths, out);
        if let Outcome::Done(count) = outcome {
            out[count] ^= 1;
        }
        outcome
    });
    assert!(found.unwrap_err().contains("combine.txt"));
}

#[test]
fn a_line_that_is_no_record_is_refused() {
    for text in ["2 2 2a", "2,2 012f022 0 2a", "2,2 012f0220 4 2a", ""] {
        assert!(combine_records(&format!("{text}\n")).is_err(), "{text}");
    }
}

#[test]
#[cfg(have_original)]
fn the_original_still_gives_the_stored_sample() {
    let original = oracle::original_at_hand().unwrap();
    let sample = oracle::sample_maker::make(original);
    assert!(sample.split == SPLIT);
    assert!(sample.combine == COMBINE);
}
