//! Sheets that are read: how files are known as sheets, and what is wrong with one that is none.

use std::os::unix::ffi::OsStrExt;
use std::path::Path;

use vsss::{Refusal, Sheet, MAX_SECRET, MAX_SHARES};

use crate::damage;
use crate::failure::Failure;
use crate::input::read_at_most;

/// More bytes than the largest sheet has. A file with as many is no sheet, and is refused at the same
/// line by its beginning as it would be by all of it: no line that ends further on can be right.
const READ_LIMIT: usize = vsss::sheet_room(MAX_SHARES, MAX_SECRET) + 1;

/// Reads a file as a sheet, whatever its name is.
pub fn read(file: &Path) -> Result<Sheet, Failure> {
    let text = read_at_most(file, READ_LIMIT)?;
    vsss::read_sheet(&text).map_err(|refusal| {
        let message = match refusal {
            Refusal::InvalidSheet { line } => damage::explain(&text, line),
            other => other.to_string(),
        };
        Failure::Refused {
            refusal,
            message: format!("{}, {message}", file.display()),
        }
    })
}

/// Whether a file is a sheet where row files are taken too. Its name decides: a row is any bytes,
/// and can begin as a sheet does.
pub fn is_named_so(file: &Path) -> bool {
    ends_with(file, ".sheet")
}

/// Stops where a file that is taken for a row file may be a sheet under another name: it would give
/// a wrong key. The name of a row file decides against a beginning that rows can have by chance, but
/// not against a whole sheet.
pub fn not_in_disguise(file: &Path, bytes: &[u8]) -> Result<(), Failure> {
    let name = file.display();
    if !bytes.starts_with(b"seal\t") {
        return Ok(());
    }
    if !ends_with(file, ".row") {
        return Err(Failure::Failed(format!(
            "{name} begins like a sheet; if it is one, let its name end in .sheet; \
             if it is a row, in .row"
        )));
    }
    match vsss::read_sheet(bytes) {
        Err(_) => Ok(()),
        Ok(_) => Err(Failure::Failed(format!(
            "{name} is a sheet, not a row file; let its name end in .sheet"
        ))),
    }
}

fn ends_with(file: &Path, ending: &str) -> bool {
    file.as_os_str().as_bytes().ends_with(ending.as_bytes())
}

#[cfg(test)]
mod tests {
    use super::*;

    const SHEET: &[u8] = b"seal\t2\t1\t1\nrow\t1\t2f\n";

    #[test]
    fn what_is_too_long_is_refused_at_the_same_line_by_its_beginning() {
        let rows: Vec<Vec<u8>> = (1..=255).map(|id| vec![id; MAX_SECRET + 1]).collect();
        let largest = vsss::sheet(2, &rows).unwrap();
        assert!(largest.len() < READ_LIMIT);
        let (all_but_the_last, _) = largest.split_at(largest.len() - 1);
        let more = vec![b'0'; READ_LIMIT];
        for (start, line) in [
            (&largest[..], 256),
            (all_but_the_last, 255),
            (&largest[..30], 1),
        ] {
            for end in ["", "\n"] {
                let text = [start, &more, end.as_bytes()].concat();
                let refused = Some(Refusal::InvalidSheet { line });
                assert_eq!(vsss::read_sheet(&text).err(), refused);
                assert_eq!(vsss::read_sheet(&text[..READ_LIMIT]).err(), refused);
            }
        }
    }

    #[test]
    fn a_name_that_ends_in_sheet_is_a_sheets() {
        for name in ["a.sheet", "dir/.sheet", "a.row.sheet"] {
            assert!(is_named_so(Path::new(name)), "{name}");
        }
        for name in ["a", "a.row", "a.SHEET", "a.sheet.txt", "a.sheet/b"] {
            assert!(!is_named_so(Path::new(name)), "{name}");
        }
    }

    #[test]
    fn what_may_be_a_sheet_is_taken_for_no_row() {
        let judged = |name: &str, bytes: &[u8]| {
            let judged = not_in_disguise(Path::new(name), bytes);
            judged.map_err(|failure| failure.to_string())
        };
        for name in ["1.row", "a.bin", "/dev/stdin"] {
            assert_eq!(judged(name, b"sealed by hand"), Ok(()));
        }
        let renamed = judged("a.txt", b"seal\tby chance").unwrap_err();
        assert!(renamed.contains("a.txt begins like a sheet"), "{renamed}");
        assert!(judged("a.txt", SHEET).is_err());
        // A row with identifier 115, which is the letter s, may have these values.
        assert_eq!(judged("115.row", b"seal\tby chance"), Ok(()));
        assert_eq!(judged("115.row", &SHEET[..SHEET.len() - 1]), Ok(()));
        let whole = judged("115.row", SHEET).unwrap_err();
        assert!(whole.contains("115.row is a sheet"), "{whole}");
    }
}
