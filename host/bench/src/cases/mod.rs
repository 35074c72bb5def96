//! What is measured. A new group is a module here that makes a [`Group`], and a line in [`all`].

mod combine;
mod reading;
mod sheet;
mod split;

use oracle::{Original, Outcome, Random};

/// The same work done twice: by ours, and by what ours is put beside.
pub trait Pair: Send {
    /// One call of ours.
    fn ours(&mut self);

    /// One call of the other.
    fn other(&mut self);

    /// One call of each, untimed. Gives how many bytes ours wrote.
    ///
    /// # Panics
    /// Where the answers differ: their times would then say nothing.
    fn assert_alike(&mut self) -> usize;
}

pub struct Case {
    /// What tells it from the other cases of its group, in the order of [`Group::numbers`].
    pub numbers: Vec<usize>,
    /// The most that the time of ours may be, as a part of the other's.
    pub limit: f64,
    /// The least that the speed of ours may be, in megabytes written a second, where that counts.
    pub least_speed: Option<f64>,
    /// Makes the input. It is made late, so that one case at a time holds its memory.
    pub prepare: Box<dyn Fn() -> Box<dyn Pair>>,
}

pub struct Group {
    pub name: &'static str,
    /// The names of the numbers of its cases.
    pub numbers: &'static str,
    /// What ours is put beside.
    pub beside: &'static str,
    pub cases: Vec<Case>,
}

impl Group {
    /// The case that differs from a case of the longest secret in that its secret is [`LONG`].
    pub fn shorter(&self, case: &Case) -> Option<&Case> {
        let (&length, others) = case.numbers.split_last()?;
        let numbers = [others, &[LONG]].concat();
        let shorter = self.cases.iter().find(|other| other.numbers == numbers);
        shorter.filter(|_| length > LONG)
    }
}

/// Every group, in the order of the pages.
pub fn all(original: Original) -> Vec<Group> {
    vec![
        combine::group(original.combine),
        split::group(original.split),
        sheet::group(),
        reading::group(),
    ]
}

/// Every run has the same inputs.
const SEED: u64 = 1;

/// Lengths of the secret: that of a key, a long one, and the longest.
const LENGTHS: [usize; 3] = [32, LONG, vsss::MAX_SECRET];

/// At the longest secret a byte may take no longer than at this length.
pub const LONG: usize = 4_096;

/// Rows of any values: combine and sheets take them as they come.
fn rows(count: usize, length: usize) -> Vec<Vec<u8>> {
    let mut random = Random::from_seed(SEED);
    let ids = random.distinct_ids(count);
    ids.into_iter()
        .map(|id| [vec![id], random.bytes(length)].concat())
        .collect()
}

/// The count of bytes that an entry says it wrote.
///
/// # Panics
/// Where it refuses: no case here is one to refuse.
fn count_written(word: u64) -> usize {
    match Outcome::from_word(word) {
        Outcome::Done(count) => count,
        refused => panic!("ours has {refused}"),
    }
}
