//! What can still follow a text that is to become a sheet of document 02.
//!
//! A sheet is a sequence of fields, and at each place a field is one word of a finite set: decimals
//! of the numbers that can stand there, identifiers that are not taken, pairs of digits. The words
//! of a set are written out beforehand and lie in order, so that those that begin alike lie
//! together. Each character that is read leaves a part of them: none, and no sheet begins so; one to
//! its end, and the next field begins. Nothing is parsed.

use super::{MAX_LIMIT, MAX_SECRET};
use std::borrow::Cow;
use std::ops::{Range, RangeInclusive};
use std::sync::LazyLock;

/// A word that a field can be, with the character that ends the field, if any; and what it is
/// written for. No word of a set is the beginning of another.
struct Word {
    text: Vec<u8>,
    number: usize,
}

type Words = Vec<&'static Word>;

fn in_order(words: impl Iterator<Item = (String, usize)>) -> Words {
    let word = |(text, number): (String, usize)| Word {
        text: text.into_bytes(),
        number,
    };
    let mut words: Vec<&Word> = words
        .map(|pair| &*Box::leak(Box::new(word(pair))))
        .collect();
    words.sort_by(|one, other| one.text.cmp(&other.text));
    words
}

fn only(word: &str) -> Words {
    in_order([(word.to_string(), 0)].into_iter())
}

fn decimals(numbers: RangeInclusive<usize>, end: char) -> Words {
    in_order(numbers.map(|number| (format!("{number}{end}"), number)))
}

static SEAL: LazyLock<Words> = LazyLock::new(|| only("seal\t"));
static THRESHOLDS: LazyLock<Words> = LazyLock::new(|| decimals(2..=MAX_LIMIT, '\t'));
static COUNTS: LazyLock<Words> = LazyLock::new(|| decimals(1..=MAX_LIMIT, '\t'));
static LENGTHS: LazyLock<Words> = LazyLock::new(|| decimals(1..=MAX_SECRET, '\n'));
static ROW: LazyLock<Words> = LazyLock::new(|| only("row\t"));
static IDS: LazyLock<Words> = LazyLock::new(|| decimals(1..=255, '\t'));
static VALUES: LazyLock<Words> =
    LazyLock::new(|| in_order((0..=255).map(|value| (format!("{value:02x}"), value))));
static LINE_FEED: LazyLock<Words> = LazyLock::new(|| only("\n"));

#[derive(Clone, Copy, PartialEq)]
enum Field {
    Seal,
    Threshold,
    Count,
    Length,
    Row,
    Identifier,
    Value,
    LineFeed,
    /// The last row is written: nothing follows.
    End,
}

/// What the fields of a sheet, or of its beginning, are written for.
#[derive(Clone, Debug, Default, PartialEq, Eq)]
pub struct Found {
    pub threshold: usize,
    /// How many rows there are, or are to be.
    pub count: usize,
    /// How many values each of them has, or is to have.
    pub length: usize,
    /// Each its identifier, then its values.
    pub rows: Vec<Vec<u8>>,
}

/// All that can follow a text so that it becomes a sheet: at least one continuation.
#[derive(Clone)]
pub struct Continuations {
    field: Field,
    /// The words that the field could be at its start.
    words: Cow<'static, [&'static Word]>,
    /// Where those of them stand that begin as the field does so far.
    left: Range<usize>,
    /// How many characters of the field were read.
    read: usize,
    found: Found,
}

impl Continuations {
    /// Those of the empty text: every sheet.
    pub fn of_nothing() -> Self {
        Continuations::at(Field::Seal, Found::default())
    }

    /// Those of a text, if it has any.
    pub fn of(text: &[u8]) -> Option<Self> {
        Continuations::of_nothing().after_all(text)
    }

    /// At the start of a field.
    fn at(field: Field, found: Found) -> Self {
        let words = words_of(field, &found);
        Continuations {
            field,
            left: 0..words.len(),
            words,
            read: 0,
            found,
        }
    }

    /// Those that begin with this character, without it; none where there are none.
    pub fn after(mut self, character: u8) -> Option<Self> {
        let left = &self.words[self.left.clone()];
        let next = |word: &&Word| word.text[self.read];
        let from = left.partition_point(|word| next(word) < character);
        let to = left.partition_point(|word| next(word) <= character);
        self.left = self.left.start + from..self.left.start + to;
        self.read += 1;
        let word = *self.words[self.left.clone()].first()?;
        if word.text.len() > self.read {
            return Some(self);
        }
        let field = next_field(self.field, word.number, &mut self.found);
        Some(Continuations::at(field, self.found))
    }

    pub fn after_all(self, text: &[u8]) -> Option<Self> {
        text.iter().try_fold(self, |so_far, &c| so_far.after(c))
    }

    /// What was read, where that is a sheet already.
    pub fn sheet(self) -> Option<Found> {
        (self.field == Field::End).then_some(self.found)
    }

    /// A character that can follow, where any can.
    pub fn next_character(&self) -> Option<u8> {
        let word = self.words[self.left.clone()].first()?;
        Some(word.text[self.read])
    }
}

fn words_of(field: Field, found: &Found) -> Cow<'static, [&'static Word]> {
    let all: &'static Words = match field {
        Field::Seal => &SEAL,
        Field::Threshold => &THRESHOLDS,
        Field::Count => &COUNTS,
        Field::Length => &LENGTHS,
        Field::Row => &ROW,
        Field::Identifier => return Cow::Owned(ids_not_in(&found.rows)),
        Field::Value => &VALUES,
        Field::LineFeed => &LINE_FEED,
        Field::End => return Cow::Borrowed(&[]),
    };
    Cow::Borrowed(all)
}

/// There is always one: a sheet has at most as many rows as there are identifiers.
fn ids_not_in(rows: &[Vec<u8>]) -> Words {
    let mut free = [true; 256];
    for row in rows {
        free[usize::from(row[0])] = false;
    }
    let ids = IDS.iter().filter(|word| free[word.number]);
    ids.copied().collect()
}

/// Notes what a field was written for, and says which follows.
fn next_field(field: Field, number: usize, found: &mut Found) -> Field {
    match field {
        Field::Seal => Field::Threshold,
        Field::Threshold => {
            found.threshold = number;
            Field::Count
        }
        Field::Count => {
            found.count = number;
            Field::Length
        }
        Field::Length => {
            found.length = number;
            Field::Row
        }
        Field::Row => Field::Identifier,
        Field::Identifier => {
            found.rows.push(vec![number as u8]);
            Field::Value
        }
        Field::Value => {
            let row = found.rows.last_mut().expect("its identifier was read");
            row.push(number as u8);
            match row.len() > found.length {
                true => Field::LineFeed,
                false => Field::Value,
            }
        }
        Field::LineFeed if found.rows.len() < found.count => Field::Row,
        Field::LineFeed | Field::End => Field::End,
    }
}
