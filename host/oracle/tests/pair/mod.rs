//! The pair of refusal 7 as document 01 had it: a fault since document 02, §5.

use oracle::Outcome;

/// A refusal by 7 with the least place whose identifier comes again, and the least place after it
/// where it does.
pub fn by_the_first_place(outcome: Outcome, rows: &[u8], width: u32) -> Outcome {
    let Outcome::Refused { number: 7, .. } = outcome else {
        return outcome;
    };
    let ids: Vec<u8> = rows.chunks(width as usize).map(|row| row[0]).collect();
    let pair = ids.iter().enumerate().find_map(|(first, id)| {
        let after = ids[first + 1..].iter().position(|other| other == id)?;
        Some((first, first + 1 + after))
    });
    let (first, second) = pair.unwrap();
    Outcome::refused_at(7, first, second)
}
