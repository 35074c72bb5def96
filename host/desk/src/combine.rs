//! `desk combine`.

use std::path::{Path, PathBuf};

use vsss::Refusal;

use crate::args::Combine;
use crate::failure::Failure;
use crate::output::Delivery;
use crate::rows::{self, Rows};
use crate::sheets;
use crate::words::{bytes, counted};

/// Combines the row files and sheets and writes the key; gives the report.
pub fn run(request: &Combine) -> Result<String, Failure> {
    rows::spare(&request.files, &request.out, "desk combine", "the key")?;
    let laid = Laid::read(&request.files)?;
    let key = vsss::combine(&laid.rows.contents).map_err(|refusal| Failure::Refused {
        refusal,
        message: laid.explain(refusal),
    })?;
    laid.are_enough()?;
    let mut delivery = Delivery::to(&[&request.out], request.force)?;
    delivery.add(&request.out, &key)?;
    delivery.publish()?;
    Ok(laid.report(&request.out, key.len()))
}

/// What is laid together to be combined.
struct Laid {
    rows: Rows,
    /// Where there is a sheet among it: row files do not tell.
    threshold: Option<Threshold>,
}

struct Threshold {
    number: usize,
    /// The sheet that says so.
    sheet: PathBuf,
}

impl Laid {
    fn read(files: &[PathBuf]) -> Result<Laid, Failure> {
        let mut laid = Laid {
            rows: Rows::default(),
            threshold: None,
        };
        for file in files {
            if sheets::is_named_so(file) {
                laid.add_sheet(file)?;
            } else {
                laid.rows.add_file(file)?;
            }
        }
        Ok(laid)
    }

    fn add_sheet(&mut self, file: &Path) -> Result<(), Failure> {
        let sheet = sheets::read(file)?;
        match &self.threshold {
            Some(said) if said.number != sheet.threshold => {
                return Err(Failure::Failed(format!(
                    "{} has threshold {} and {} has threshold {}; sheets of one split have the \
                     same: one is of another split, or was written with a wrong one",
                    said.sheet.display(),
                    said.number,
                    file.display(),
                    sheet.threshold
                )))
            }
            Some(_) => {}
            None => {
                self.threshold = Some(Threshold {
                    number: sheet.threshold,
                    sheet: file.into(),
                })
            }
        }
        self.rows.add_sheet(file, &sheet.rows);
        Ok(())
    }

    /// Fewer rows than a sheet asks for would give a wrong key.
    fn are_enough(&self) -> Result<(), Failure> {
        let count = self.rows.contents.len();
        match &self.threshold {
            Some(said) if count < said.number => {
                let (sheet, number) = (said.sheet.display(), said.number);
                Err(Failure::Failed(format!(
                    "{} are too few: {sheet} has threshold {number}, and with fewer rows the key \
                     would be wrong; add {} more",
                    counted(count, "row"),
                    number - count
                )))
            }
            _ => Ok(()),
        }
    }

    fn explain(&self, refusal: Refusal) -> String {
        match refusal {
            Refusal::SharingMinThreshold => {
                let needed = match &self.threshold {
                    Some(said) => format!("the sheet has threshold {}", said.number),
                    None => "give at least 2 row files, and as many as the threshold".to_string(),
                };
                format!("{} alone is not enough; {needed}", self.rows.name(0))
            }
            other => self.rows.explain(other),
        }
    }

    fn report(&self, out: &Path, len: usize) -> String {
        let (out, len, rows) = (out.display(), bytes(len), self.rows.contents.len());
        let (enough, doubt) = match &self.threshold {
            Some(Threshold { number, sheet }) => (
                format!(", enough for threshold {number} of {}", sheet.display()),
                "whether a row is damaged, or of another split".to_string(),
            ),
            None => (
                String::new(),
                format!("whether {rows} rows are enough, or whether one is damaged"),
            ),
        };
        format!(
            "wrote {out}: {len} from {rows} rows{enough}\n\
             combine cannot know {doubt}: then the key\n\
             is WRONG. Try it before you rely on it, and keep the rows until then.\n"
        )
    }
}
