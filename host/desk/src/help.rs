//! The pages of `--help`.

use vsss::MAX_SECRET;

use crate::words::grouped;

/// Stands in a page for the number of bytes of the longest key.
const LONGEST: &str = "{longest}";

/// A page as it is shown.
pub fn shown(page: &str) -> String {
    page.replace(LONGEST, &grouped(MAX_SECRET))
}

pub const DESK: &str = "\
desk: splits a key file into row files, combines them into the key, writes them as sheets and
reads sheets

  desk split --threshold T --ids 1,2,3,4 [--coefficients FILE] [--force] --out DIR KEYFILE
  desk combine [--force] --out KEYFILE FILE...
  desk sheet --threshold T [--force] [--out FILE] ROWFILE...
  desk read [--force] --out DIR SHEETFILE

Each has a page of its own: 'desk split --help'.

Any T rows of a split give the key back. Fewer than T say nothing of it.

WARNING: row files do not say T. With too few of them, or with a damaged value, combine succeeds and
the key that it writes is WRONG. Note T with the rows, and try the key before you rely on it.

Exit status: 0 done
             1 refused or failed; no file was written or changed. A refusal has its number
               and name as in docs/RULES.md
             2 wrong usage; no file was written or changed
A run that was killed can leave files named .desk-*; remove them.
";

pub const SPLIT: &str = "\
desk split: splits a key file into row files

  desk split --threshold T --ids 1,2,3,4 [--coefficients FILE] [--force] --out DIR KEYFILE

  KEYFILE              the key: 1 to {longest} bytes. It is read, not changed
  --threshold T        how many rows give the key back: from 2 to the number of identifiers
  --ids 1,2,3,4        one identifier for each row, different, from 1 to 255
  --out DIR            the folder for the row files 1.row, 2.row, ..; it is made if missing
  --coefficients FILE  take the random bytes from the start of FILE: T - 1 for each byte of the
                       key. Without it they come from the system's random device
  --force              replace row files that are there already

A row file is the identifier, one byte, then one byte for each byte of the key. Only its owner
can read it. Each appears whole; if anything fails, none is left behind.

Any T rows give the key back, fewer say nothing of it. That rests on the coefficients: they must
be random, known to nobody, and used for one split only. Destroy a FILE after use.

WARNING: no row says what T was. With too few row files combine succeeds with a WRONG key. Note T
with the rows.
";

pub const COMBINE: &str = "\
desk combine: combines row files and sheets into the key

  desk combine [--force] --out KEYFILE FILE...

  FILE...              row files and sheets of one split, each row once, in any order: together at
                       least as many rows as the threshold of the split. A file whose name ends
                       in .sheet is a sheet, any other is a row file
  --out KEYFILE        the file for the key
  --force              replace KEYFILE if it is there already

Only its owner can read KEYFILE. It appears whole or not at all.

The name decides because a row is any bytes, and can begin as a sheet does. A file that begins so
is refused where its name ends neither in .sheet nor in .row, and a whole sheet also where it ends
in .row.

Sheets say the threshold. All must say the same, and fewer rows than that are refused.

WARNING: row files do not say it. With too few of them, and always with a damaged value, combine
succeeds and the key is WRONG. So it can be with rows of different splits. Nothing in the rows can
show that: try the key before you rely on it, and keep the rows until then.
";

pub const SHEET: &str = "\
desk sheet: writes row files as a sheet of text, to be kept on paper

  desk sheet --threshold T [--force] [--out FILE] ROWFILE...

  ROWFILE...           row files of one split, each once, in the order that the sheet is to have.
                       One is enough: a holder can print his own
  --threshold T        the threshold of the split, from 2 to 255
  --out FILE           the file for the sheet. Without it the sheet goes to standard output. Let its
                       name end in .sheet: desk combine knows sheets by that
  --force              replace FILE if it is there already

The first line is 'seal', T, the number of rows and the number of bytes of the key. Then each row
has a line: 'row', its identifier, and its values in hexadecimal, two digits each. Fields are
parted by tabs.

Only its owner can read FILE. It appears whole or not at all. On standard output a part may have
appeared when writing fails.

WARNING: a sheet is as secret as the rows on it. With T rows or more it gives the key away.
No row says what T is: the sheet says what you say, and nothing can show that it is wrong.
";

pub const READ: &str = "\
desk read: reads a sheet into row files

  desk read [--force] --out DIR SHEETFILE

  SHEETFILE            a sheet as desk sheet writes it, under any name. It is read, not changed
  --out DIR            the folder for the row files, named 7.row for identifier 7; it is made if
                       missing
  --force              replace row files that are there already

The row files are as those of desk split. Only their owner can read them. Each appears whole; if
anything fails, none is left behind.

A text that desk sheet cannot have written is refused with the first line, counting from 0, at which
that shows, and with what a sheet has there.

WARNING: a wrong digit among the values shows nowhere. Whoever copies a sheet from paper checks it,
and tries the key before he relies on it.
";
