//! Split and combine of the original beside the plain reading.
#![cfg(have_original)]

use oracle::{Reference, compare};

#[test]
fn a_hundred_thousand_random_calls() {
    let summary = compare::run(&Reference, 100_000, 1);
    println!("{summary}");
    summary.assert_clean();
    assert_eq!(summary.random, 100_000);
    every_refusal_was_met(&summary);
}

/// `cargo test --release -- --ignored --nocapture` shows the counts.
#[test]
#[ignore = "takes long; the gate runs the shorter one"]
fn a_million_random_calls() {
    let summary = compare::run(&Reference, 1_000_000, 2);
    println!("{summary}");
    summary.assert_clean();
    every_refusal_was_met(&summary);
}

/// Split and combine never give 9.
fn every_refusal_was_met(summary: &compare::Summary) {
    for number in (1..=13).filter(|number| *number != 9) {
        assert!(summary.tally.refused[number] > 50, "{number}: {summary}");
    }
    assert!(
        summary.with_original > summary.calls() * 9 / 10,
        "{summary}"
    );
    assert!(summary.beyond_original > 100, "{summary}");
}
