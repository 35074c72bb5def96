//! `desk read`.

use std::path::PathBuf;

use vsss::Sheet;

use crate::args::Read;
use crate::failure::Failure;
use crate::output::same_file;
use crate::rows::{deliver, places};
use crate::sheets;
use crate::words::counted;

/// Reads the sheet and writes its rows as row files; gives the report.
pub fn run(request: &Read) -> Result<String, Failure> {
    let sheet = sheets::read(&request.sheet)?;
    let places = places(&request.out, sheet.rows.iter().map(vsss::Row::identifier));
    spare_the_sheet(request, &places)?;
    let wrote = deliver(&request.out, &places, &sheet.rows, request.force)?;
    Ok(wrote + &report(&sheet))
}

/// With --force a row could otherwise take the place of the sheet itself.
fn spare_the_sheet(request: &Read, places: &[PathBuf]) -> Result<(), Failure> {
    match places.iter().find(|place| same_file(place, &request.sheet)) {
        None => Ok(()),
        Some(place) => Err(Failure::Usage {
            page: "desk read",
            message: format!(
                "{} is the sheet itself; choose another --out for the rows",
                place.display()
            ),
        }),
    }
}

fn report(sheet: &Sheet) -> String {
    let (threshold, count) = (sheet.threshold, counted(sheet.rows.len(), "row"));
    let enough = match sheet.rows.len() >= threshold {
        true => "These are enough for the key: whoever reads the sheet or the files has it.\n",
        false => "",
    };
    format!(
        "{count} of a split whose threshold is {threshold}, as the sheet says.\n{enough}\
         Note the number {threshold} with the rows: row files do not tell it, and with fewer rows\n\
         combine gives a WRONG key without a warning.\n"
    )
}
