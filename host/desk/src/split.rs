//! `desk split`.

use std::path::{Path, PathBuf};

use vsss::{Refusal, Row, Secret, MAX_SECRET};

use crate::args::Split;
use crate::failure::Failure;
use crate::input::{random_bytes, read_at_most};
use crate::output::same_file;
use crate::rows::{deliver, places};
use crate::words::{bytes, grouped};

/// Splits the key and writes the row files; gives the report.
pub fn run(request: &Split) -> Result<String, Failure> {
    let places = places(&request.out, request.ids.iter().copied());
    spare_the_sources(request, &places)?;
    no_key_as_coefficients(request)?;
    // One byte more than the longest key shows one that is too long.
    let key = read_at_most(&request.key, MAX_SECRET + 1)?;
    judge(request, &key)?;
    let rows = split(request, &key)?;
    let wrote = deliver(&request.out, &places, &rows, request.force)?;
    Ok(wrote + &report(request.threshold, rows.len()))
}

/// With --force a row could otherwise take the place of the key itself.
fn spare_the_sources(request: &Split, places: &[PathBuf]) -> Result<(), Failure> {
    let key = Some(("the key", &request.key));
    let coefficients = request
        .coefficients
        .as_ref()
        .map(|file| ("the coefficients", file));
    for (what, source) in key.into_iter().chain(coefficients) {
        if let Some(place) = places.iter().find(|place| same_file(place, source)) {
            let place = place.display();
            return Err(wrong(format!(
                "{place} holds {what}; choose another --out for the rows"
            )));
        }
    }
    Ok(())
}

/// The key as its own coefficients would stand open in the rows.
fn no_key_as_coefficients(request: &Split) -> Result<(), Failure> {
    match &request.coefficients {
        Some(file) if same_file(file, &request.key) => {
            let file = file.display();
            Err(wrong(format!(
                "--coefficients names the key, {file}; name random bytes"
            )))
        }
        _ => Ok(()),
    }
}

fn wrong(message: String) -> Failure {
    Failure::Usage {
        page: "desk split",
        message,
    }
}

/// Lets the library judge all but the coefficients, before any are read. An empty list of them is
/// never right, so that what it says of that is no news.
fn judge(request: &Split, key: &[u8]) -> Result<(), Failure> {
    let Split { threshold, ids, .. } = request;
    match vsss::split_into(*threshold, ids.len(), key, ids, &[], &mut []) {
        Ok(_) | Err(Refusal::CoefficientCount) => Ok(()),
        Err(refusal) => Err(Failure::Refused {
            refusal,
            message: explain(request, refusal),
        }),
    }
}

fn split(request: &Split, key: &[u8]) -> Result<Vec<Row>, Failure> {
    let needed = vsss::coefficients_needed(request.threshold, key.len());
    let coefficients = coefficients(request, needed)?;
    let rows = vsss::split(request.threshold, &request.ids, key, &coefficients);
    rows.map_err(|refusal| {
        let message = match (refusal, &request.coefficients) {
            (Refusal::CoefficientCount, Some(file)) => too_few(file, coefficients.len(), needed),
            _ => explain(request, refusal),
        };
        Failure::Refused { refusal, message }
    })
}

fn coefficients(request: &Split, needed: usize) -> Result<Secret, Failure> {
    match &request.coefficients {
        Some(file) => read_at_most(file, needed),
        None => random_bytes(needed),
    }
}

fn too_few(file: &Path, got: usize, needed: usize) -> String {
    let file = file.display();
    let (got, needed) = (bytes(got), grouped(needed));
    format!("{file} has {got}, and {needed} are needed: key bytes times (threshold - 1)")
}

fn explain(request: &Split, refusal: Refusal) -> String {
    let Split {
        threshold,
        ids,
        key,
        ..
    } = request;
    let (count, key) = (ids.len(), key.display());
    match refusal {
        Refusal::InvalidSizeRequest => {
            format!("--ids names {count} identifiers; at most 255 can be")
        }
        Refusal::InvalidSecret => format!("{key} is empty; there is nothing to split"),
        Refusal::SharingLimitLessThanThreshold => format!(
            "--threshold {threshold} is more than the rows that --ids asks for, {count}; \
             add identifiers or lower the threshold"
        ),
        Refusal::SharingMinThreshold => {
            format!("--threshold {threshold} is too low; it must be at least 2")
        }
        Refusal::SharingInvalidIdentifier { place } => {
            format!("--ids has 0 at place {place}, counting from 0; identifiers are 1 to 255")
        }
        Refusal::TooLong => format!(
            "{key} is longer than {}; seal it with a short key, and split that",
            bytes(MAX_SECRET)
        ),
        other => other.to_string(),
    }
}

fn report(threshold: usize, count: usize) -> String {
    format!(
        "Any {threshold} of these {count} rows give the key back; fewer say nothing of it.\n\
         Note the number {threshold} with the rows: combine cannot know it, and with fewer rows it\n\
         gives a WRONG key without a warning.\n"
    )
}
