//! Row files: what they hold, what is wrong with them, and how they are written.

use std::path::{Path, PathBuf};

use vsss::{Refusal, Row, Secret, MAX_SECRET};

use crate::failure::Failure;
use crate::input::read_at_most;
use crate::output::{same_file, Delivery, Folder};
use crate::sheets;
use crate::words::{bytes, grouped};

/// Far above the longest row. Below it the library sees the whole file and judges it.
const READ_LIMIT: usize = 16 * MAX_SECRET;

/// Rows, each with what a person knows it by.
#[derive(Default)]
pub struct Rows {
    names: Vec<String>,
    /// Each its identifier, then its values.
    pub contents: Vec<Secret>,
}

impl Rows {
    /// Reads row files.
    pub fn read(files: &[PathBuf]) -> Result<Rows, Failure> {
        let mut rows = Rows::default();
        for file in files {
            if sheets::is_named_so(file) {
                let file = file.display();
                return Err(Failure::Failed(format!(
                    "{file} is a sheet by its name; 'desk read' makes row files of it"
                )));
            }
            rows.add_file(file)?;
        }
        Ok(rows)
    }

    /// Adds the row of a row file.
    pub fn add_file(&mut self, file: &Path) -> Result<(), Failure> {
        self.contents.push(read_row(file)?);
        self.names.push(file.display().to_string());
        Ok(())
    }

    /// Adds the rows of a sheet.
    pub fn add_sheet(&mut self, file: &Path, rows: &[Row]) {
        for row in rows {
            let (id, file) = (row.identifier(), file.display());
            self.contents.push(Secret::copy_of(row.as_bytes()));
            self.names.push(format!("row {id} of {file}"));
        }
    }

    /// What the row at this place is known by: its file, or its identifier and its sheet.
    pub fn name(&self, place: usize) -> String {
        match self.names.get(place) {
            Some(name) => name.clone(),
            None => format!("row {place}"),
        }
    }

    /// What a refusal says of the rows.
    pub fn explain(&self, refusal: Refusal) -> String {
        match refusal {
            Refusal::InvalidShare => self.explain_lengths(),
            Refusal::SharingInvalidIdentifier { place } => format!(
                "{} has identifier 0, which no row has; it is damaged or no row file",
                self.name(place)
            ),
            Refusal::SharingDuplicateIdentifier { first, second } => {
                self.explain_repeat(first, second)
            }
            Refusal::TooLong => format!(
                "{} has {}; a row file has at most {}",
                self.name(0),
                bytes(self.contents[0].len()),
                grouped(MAX_SECRET + 1)
            ),
            other => other.to_string(),
        }
    }

    fn explain_repeat(&self, first: usize, second: usize) -> String {
        let (one, other) = (self.name(first), self.name(second));
        if one == other {
            return format!("{one} is given twice; give each row once");
        }
        let row = self.contents.get(first);
        let id = row.and_then(|row| row.first()).unwrap_or(&0);
        format!("{one} and {other} carry the same identifier, {id}; give each row once")
    }

    fn explain_lengths(&self) -> String {
        let rows = &self.contents;
        if let Some(empty) = rows.iter().position(|row| row.is_empty()) {
            let name = self.name(empty);
            return format!("{name} is empty; a row file has at least 2 bytes");
        }
        let (name, first) = (self.name(0), rows[0].len());
        match rows.iter().position(|row| row.len() != first) {
            Some(other) if first >= 2 => format!(
                "{name} has {} and {} has {}; rows of one split are equally long: \
                 one is damaged or of another split",
                bytes(first),
                self.name(other),
                bytes(rows[other].len())
            ),
            _ => format!("{name} has {}; a row file has at least 2", bytes(first)),
        }
    }
}

fn read_row(file: &Path) -> Result<Secret, Failure> {
    let row = read_at_most(file, READ_LIMIT)?;
    sheets::not_in_disguise(file, &row)?;
    if row.len() == READ_LIMIT {
        let (file, most) = (file.display(), bytes(MAX_SECRET + 1));
        let message = format!("{file} is no row file; a row file has at most {most}");
        return Err(Failure::Failed(message));
    }
    Ok(row)
}

/// With --force the output, which is `what`, could otherwise take the place of a row.
pub fn spare(files: &[PathBuf], out: &Path, page: &'static str, what: &str) -> Result<(), Failure> {
    match files.iter().find(|file| same_file(file, out)) {
        None => Ok(()),
        Some(file) => {
            let kind = match sheets::is_named_so(file) {
                true => "sheet",
                false => "row file",
            };
            let file = file.display();
            let message = format!("--out names the {kind} {file}; name another file for {what}");
            Err(Failure::Usage { page, message })
        }
    }
}

/// The place of the row file for each identifier.
pub fn places(folder: &Path, ids: impl Iterator<Item = u8>) -> Vec<PathBuf> {
    ids.map(|id| folder.join(format!("{id}.row"))).collect()
}

/// Writes the row files, all or none, and gives what is to be reported of them.
pub fn deliver(
    folder: &Path,
    places: &[PathBuf],
    rows: &[Row],
    force: bool,
) -> Result<String, Failure> {
    // Before the files, so that it is dropped behind them: only an empty folder can be removed.
    let folder = Folder::open(folder)?;
    let mut delivery = Delivery::to(places, force)?;
    for (place, row) in places.iter().zip(rows) {
        delivery.add(place, row.as_bytes())?;
    }
    delivery.publish()?;
    folder.keep();
    let wrote = places
        .iter()
        .map(|place| format!("wrote {}\n", place.display()));
    Ok(wrote.collect())
}
