//! What a call has to answer and to leave, and whether it did.

use crate::{Guarded, Outcome};

/// What a call has to answer, and what its output has to hold.
pub(super) struct Expected {
    pub outcome: Outcome,
    pub before: Vec<u8>,
    pub after: Vec<u8>,
}

impl Expected {
    /// Works out a call by the plain reading, over an output that holds these bytes.
    pub fn by(plain: impl FnOnce(&mut [u8]) -> Outcome, before: Vec<u8>) -> Self {
        let mut after = before.clone();
        let outcome = plain(&mut after);
        Expected {
            outcome,
            before,
            after,
        }
    }

    pub fn check(&self, outcome: Outcome, out: &Guarded<u8>) -> Result<(), String> {
        answered(outcome, self.outcome)?;
        written("the output", out, &self.after)
    }
}

pub(super) fn answered(outcome: Outcome, expected: Outcome) -> Result<(), String> {
    if outcome == expected {
        Ok(())
    } else {
        Err(format!("answered {outcome}, expected {expected}"))
    }
}

/// Whether a lent output holds what it should, and nothing beside it changed.
pub(super) fn written(name: &str, out: &Guarded<u8>, expected: &[u8]) -> Result<(), String> {
    if out.lend() != expected {
        let difference = first_difference(out.lend(), expected);
        return Err(format!("{name} is wrong{difference}"));
    }
    if !out.holds(expected) {
        return Err(format!("a byte beside {name} changed"));
    }
    Ok(())
}

pub(super) fn first_difference(found: &[u8], expected: &[u8]) -> String {
    let place = found.iter().zip(expected).position(|(a, b)| a != b);
    place.map_or(String::new(), |place| {
        format!(
            ": byte {place} is {:02x}, not {:02x}",
            found[place], expected[place]
        )
    })
}

pub(super) fn untouched<T: Copy + PartialEq>(
    name: &str,
    buffer: &Guarded<T>,
) -> Result<(), String> {
    if buffer.is_untouched() {
        Ok(())
    } else {
        Err(format!("{name} or a canary beside changed"))
    }
}
