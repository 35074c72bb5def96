//! `desk sheet`.

use std::path::Path;

use vsss::Refusal;

use crate::args::Sheet;
use crate::failure::Failure;
use crate::output::{to_standard_output, Delivery};
use crate::rows::{self, Rows};
use crate::words::counted;

/// Writes the row files as a sheet; gives the report, which is empty where the sheet itself is
/// what is read.
pub fn run(request: &Sheet) -> Result<String, Failure> {
    if let Some(out) = &request.out {
        rows::spare(&request.rows, out, "desk sheet", "the sheet")?;
    }
    let rows = Rows::read(&request.rows)?;
    let sheet =
        vsss::sheet(request.threshold, &rows.contents).map_err(|refusal| Failure::Refused {
            refusal,
            message: explain(request.threshold, &rows, refusal),
        })?;
    match &request.out {
        None => {
            to_standard_output("the sheet", &sheet)?;
            Ok(String::new())
        }
        Some(out) => {
            let mut delivery = Delivery::to(&[out], request.force)?;
            delivery.add(out, &sheet)?;
            delivery.publish()?;
            Ok(report(out, request.threshold, rows.contents.len()))
        }
    }
}

fn explain(threshold: usize, rows: &Rows, refusal: Refusal) -> String {
    match refusal {
        Refusal::InvalidSizeRequest => {
            format!("--threshold {threshold} is too high; no split has one over 255")
        }
        // The other reason for it, no rows, is wrong usage.
        Refusal::SharingMinThreshold => {
            format!("--threshold {threshold} is too low; no split has one under 2")
        }
        other => rows.explain(other),
    }
}

fn report(out: &Path, threshold: usize, rows: usize) -> String {
    let (out, count) = (out.display(), counted(rows, "row"));
    let mut text = format!("wrote {out}: {count}, threshold {threshold}\n");
    if rows >= threshold {
        text += "These rows are enough for the key: whoever reads the sheet has it.\n";
    }
    text
}
