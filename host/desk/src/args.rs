//! The command line.

use std::ffi::{OsStr, OsString};
use std::os::unix::ffi::OsStrExt;
use std::path::PathBuf;

use crate::failure::Failure;
use crate::help;

#[derive(Debug, PartialEq)]
pub enum Command {
    Help(&'static str),
    Split(Split),
    Combine(Combine),
    Sheet(Sheet),
    Read(Read),
}

#[derive(Debug, PartialEq)]
pub struct Split {
    pub threshold: usize,
    /// All different; 0 may be among them, the library judges that.
    pub ids: Vec<u8>,
    pub coefficients: Option<PathBuf>,
    pub out: PathBuf,
    pub force: bool,
    pub key: PathBuf,
}

#[derive(Debug, PartialEq)]
pub struct Combine {
    pub out: PathBuf,
    pub force: bool,
    /// Row files and sheets, one or more.
    pub files: Vec<PathBuf>,
}

#[derive(Debug, PartialEq)]
pub struct Sheet {
    pub threshold: usize,
    /// Standard output where there is none.
    pub out: Option<PathBuf>,
    pub force: bool,
    /// One or more.
    pub rows: Vec<PathBuf>,
}

#[derive(Debug, PartialEq)]
pub struct Read {
    pub out: PathBuf,
    pub force: bool,
    pub sheet: PathBuf,
}

const SPLIT: &str = "desk split";
const COMBINE: &str = "desk combine";
const SHEET: &str = "desk sheet";
const READ: &str = "desk read";

pub fn parse(mut words: Vec<OsString>) -> Result<Command, Failure> {
    if words.is_empty() {
        return Err(usage(
            "desk",
            "say what to do: split, combine, sheet or read",
        ));
    }
    let command = words.remove(0);
    match command.to_str() {
        Some("--help" | "-h") => Ok(Command::Help(help::DESK)),
        Some("split") => parse_split(words),
        Some("combine") => parse_combine(words),
        Some("sheet") => parse_sheet(words),
        Some("read") => parse_read(words),
        _ => {
            let name = command.to_string_lossy();
            Err(usage(
                "desk",
                format!("there is no command {name}; there are split, combine, sheet and read"),
            ))
        }
    }
}

fn parse_split(words: Vec<OsString>) -> Result<Command, Failure> {
    if asks_for_help(&words) {
        return Ok(Command::Help(help::SPLIT));
    }
    let valued = ["--threshold", "--ids", "--coefficients", "--out"];
    let mut line = Line::sort(SPLIT, words, &valued)?;
    let threshold = line.need_threshold()?;
    let ids = ids_of(&line.need("--ids")?)?;
    let out = line.need_path("--out")?;
    let coefficients = line.take_path("--coefficients")?;
    let key = line.only_file("KEYFILE")?;
    Ok(Command::Split(Split {
        threshold,
        ids,
        coefficients,
        out,
        force: line.force,
        key,
    }))
}

fn parse_combine(words: Vec<OsString>) -> Result<Command, Failure> {
    if asks_for_help(&words) {
        return Ok(Command::Help(help::COMBINE));
    }
    let mut line = Line::sort(COMBINE, words, &["--out"])?;
    let out = line.need_path("--out")?;
    line.need_files("FILE", "name the row files and sheets to combine")?;
    Ok(Command::Combine(Combine {
        out,
        force: line.force,
        files: line.files,
    }))
}

fn parse_sheet(words: Vec<OsString>) -> Result<Command, Failure> {
    if asks_for_help(&words) {
        return Ok(Command::Help(help::SHEET));
    }
    let mut line = Line::sort(SHEET, words, &["--threshold", "--out"])?;
    let threshold = line.need_threshold()?;
    let out = line.take_path("--out")?;
    line.need_files("ROWFILE", "name the row files to write")?;
    Ok(Command::Sheet(Sheet {
        threshold,
        out,
        force: line.force,
        rows: line.files,
    }))
}

fn parse_read(words: Vec<OsString>) -> Result<Command, Failure> {
    if asks_for_help(&words) {
        return Ok(Command::Help(help::READ));
    }
    let mut line = Line::sort(READ, words, &["--out"])?;
    let out = line.need_path("--out")?;
    let sheet = line.only_file("SHEETFILE")?;
    Ok(Command::Read(Read {
        out,
        force: line.force,
        sheet,
    }))
}

fn asks_for_help(words: &[OsString]) -> bool {
    let options = words.iter().take_while(|word| *word != "--");
    options
        .into_iter()
        .any(|word| word == "--help" || word == "-h")
}

/// A command line sorted into options and files.
struct Line {
    page: &'static str,
    values: Vec<(String, OsString)>,
    force: bool,
    files: Vec<PathBuf>,
}

impl Line {
    /// `--name value` and `--name=value` are alike; behind `--` all words are files.
    fn sort(page: &'static str, words: Vec<OsString>, valued: &[&str]) -> Result<Line, Failure> {
        let mut line = Line {
            page,
            values: Vec::new(),
            force: false,
            files: Vec::new(),
        };
        let mut words = words.into_iter();
        while let Some(word) = words.next() {
            if word == "--" {
                line.files.extend(words.by_ref().map(PathBuf::from));
            } else if !word.as_bytes().starts_with(b"-") {
                line.files.push(word.into());
            } else if word == "--force" {
                line.force = true;
            } else {
                let (name, value) = name_and_value(&word);
                if !valued.contains(&name.as_str()) {
                    return Err(line.wrong(format!("there is no option {name}")));
                }
                let value = match value.or_else(|| words.next()) {
                    Some(value) => value,
                    None => return Err(line.wrong(format!("{name} needs a value"))),
                };
                line.give(name, value)?;
            }
        }
        Ok(line)
    }

    fn give(&mut self, name: String, value: OsString) -> Result<(), Failure> {
        if self.values.iter().any(|(given, _)| *given == name) {
            return Err(self.wrong(format!("{name} is given twice")));
        }
        self.values.push((name, value));
        Ok(())
    }

    fn take(&mut self, name: &str) -> Option<OsString> {
        let place = self.values.iter().position(|(given, _)| given == name)?;
        Some(self.values.remove(place).1)
    }

    fn need(&mut self, name: &str) -> Result<OsString, Failure> {
        self.take(name)
            .ok_or_else(|| self.wrong(format!("{name} is missing")))
    }

    fn take_path(&mut self, name: &str) -> Result<Option<PathBuf>, Failure> {
        match self.take(name) {
            Some(value) if value.is_empty() => Err(self.wrong(format!("{name} is empty"))),
            value => Ok(value.map(PathBuf::from)),
        }
    }

    fn need_path(&mut self, name: &str) -> Result<PathBuf, Failure> {
        let path = self.take_path(name)?;
        path.ok_or_else(|| self.wrong(format!("{name} is missing")))
    }

    fn need_threshold(&mut self) -> Result<usize, Failure> {
        let value = self.need("--threshold")?;
        let text = value.to_string_lossy();
        match number(&text) {
            Some(usize::MAX) => Err(self.wrong(format!("--threshold {text} is far too large"))),
            Some(threshold) => Ok(threshold),
            None => Err(self.wrong(format!("--threshold {text} is not a number like 2"))),
        }
    }

    fn need_files(&self, what: &str, advice: &str) -> Result<(), Failure> {
        if self.files.is_empty() {
            return Err(self.wrong(format!("no {what} is named; {advice}")));
        }
        Ok(())
    }

    fn only_file(&mut self, what: &str) -> Result<PathBuf, Failure> {
        match self.files.len() {
            0 => Err(self.wrong(format!("{what} is missing"))),
            1 => Ok(self.files.remove(0)),
            count => Err(self.wrong(format!("one {what} is wanted, and {count} are named"))),
        }
    }

    fn wrong(&self, message: String) -> Failure {
        usage(self.page, message)
    }
}

fn name_and_value(word: &OsStr) -> (String, Option<OsString>) {
    let bytes = word.as_bytes();
    let (name, value) = match bytes.iter().position(|&byte| byte == b'=') {
        Some(place) => (
            &bytes[..place],
            Some(OsStr::from_bytes(&bytes[place + 1..]).into()),
        ),
        None => (bytes, None),
    };
    (String::from_utf8_lossy(name).into_owned(), value)
}

fn ids_of(value: &OsStr) -> Result<Vec<u8>, Failure> {
    let text = value.to_string_lossy();
    let mut ids = Vec::new();
    for word in text.split(',').map(str::trim) {
        let id = id_of(word)?;
        // The library would split for it, but there is one file for each identifier.
        if ids.contains(&id) {
            return Err(usage(
                SPLIT,
                format!("--ids has {id} twice; each row needs its own identifier"),
            ));
        }
        ids.push(id);
    }
    Ok(ids)
}

fn id_of(word: &str) -> Result<u8, Failure> {
    let wrong = match number(word).map(u8::try_from) {
        Some(Ok(id)) => return Ok(id),
        Some(Err(_)) => format!("--ids: {word} is out of range; identifiers are 1 to 255"),
        None => format!("--ids: '{word}' is not a number; write them like 1,2,3"),
    };
    Err(usage(SPLIT, wrong))
}

/// Plain digits only: no sign, no point. What is too large for any use counts as the largest.
fn number(text: &str) -> Option<usize> {
    if text.is_empty() || !text.bytes().all(|byte| byte.is_ascii_digit()) {
        return None;
    }
    Some(text.parse().unwrap_or(usize::MAX))
}

fn usage(page: &'static str, message: impl Into<String>) -> Failure {
    Failure::Usage {
        page,
        message: message.into(),
    }
}

#[cfg(test)]
mod tests {
    use super::*;

    fn parsed(line: &str) -> Result<Command, String> {
        let words = line
            .split(' ')
            .filter(|word| !word.is_empty())
            .map(OsString::from);
        parse(words.collect()).map_err(|failure| {
            assert_eq!(failure.exit_code(), 2);
            failure.to_string()
        })
    }

    fn wrong(line: &str) -> String {
        parsed(line).expect_err("accepted")
    }

    #[test]
    fn a_split_in_full() {
        let expected = Split {
            threshold: 2,
            ids: vec![1, 20, 255],
            coefficients: Some("c.bin".into()),
            out: "rows".into(),
            force: true,
            key: "key.bin".into(),
        };
        let in_order =
            "split --threshold 2 --ids 1,20,255 --coefficients c.bin --force --out rows key.bin";
        let otherwise =
            "split key.bin --out=rows --force --ids=1,20,255 --coefficients=c.bin --threshold=2";
        assert_eq!(parsed(in_order), parsed(otherwise));
        assert_eq!(parsed(in_order), Ok(Command::Split(expected)));
    }

    #[test]
    fn a_combine_in_full() {
        let expected = Combine {
            out: "key.bin".into(),
            force: false,
            files: vec!["1.row".into(), "--out".into()],
        };
        assert_eq!(
            parsed("combine --out key.bin 1.row -- --out"),
            Ok(Command::Combine(expected))
        );
    }

    #[test]
    fn a_sheet_in_full() {
        let expected = |out: Option<&str>, force| {
            Ok(Command::Sheet(Sheet {
                threshold: 2,
                out: out.map(PathBuf::from),
                force,
                rows: vec!["1.row".into(), "2.row".into()],
            }))
        };
        assert_eq!(
            parsed("sheet --threshold 2 1.row 2.row"),
            expected(None, false)
        );
        assert_eq!(
            parsed("sheet --force 1.row --out=a.sheet --threshold=2 -- 2.row"),
            expected(Some("a.sheet"), true)
        );
    }

    #[test]
    fn a_read_in_full() {
        let expected = |force| {
            Ok(Command::Read(Read {
                out: "rows".into(),
                force,
                sheet: "a.sheet".into(),
            }))
        };
        assert_eq!(parsed("read --out rows a.sheet"), expected(false));
        assert_eq!(parsed("read a.sheet --force --out=rows"), expected(true));
    }

    #[test]
    fn help_is_given_wherever_it_is_asked_for() {
        assert_eq!(parsed("--help"), Ok(Command::Help(help::DESK)));
        assert_eq!(parsed("-h"), Ok(Command::Help(help::DESK)));
        assert_eq!(
            parsed("split --ids x --help"),
            Ok(Command::Help(help::SPLIT))
        );
        assert_eq!(parsed("combine -h"), Ok(Command::Help(help::COMBINE)));
        assert_eq!(parsed("sheet x --help"), Ok(Command::Help(help::SHEET)));
        assert_eq!(parsed("read --help x"), Ok(Command::Help(help::READ)));
    }

    #[test]
    fn what_is_missing_is_named() {
        assert!(wrong("").contains("split, combine, sheet or read"));
        assert!(wrong("join").contains("no command join"));
        assert!(wrong("split --ids 1,2 --out d k").contains("--threshold is missing"));
        assert!(wrong("split --threshold 2 --out d k").contains("--ids is missing"));
        assert!(wrong("split --threshold 2 --ids 1,2 k").contains("--out is missing"));
        assert!(wrong("split --threshold 2 --ids 1,2 --out d").contains("KEYFILE is missing"));
        assert!(wrong("split --threshold 2 --ids 1,2 --out= k").contains("--out is empty"));
        assert!(wrong("combine 1.row 2.row").contains("--out is missing"));
        assert!(wrong("combine --out k").contains("no FILE"));
        assert!(wrong("combine 1.row --out").contains("--out needs a value"));
        assert!(wrong("sheet 1.row").contains("--threshold is missing"));
        assert!(wrong("sheet --threshold 2").contains("no ROWFILE"));
        assert!(wrong("sheet --threshold 2 --out= 1.row").contains("--out is empty"));
        assert!(wrong("read a.sheet").contains("--out is missing"));
        assert!(wrong("read --out d").contains("SHEETFILE is missing"));
    }

    #[test]
    fn what_is_too_much_is_named() {
        assert!(wrong("combine --out a --out b 1.row").contains("--out is given twice"));
        assert!(wrong("combine --threshold 2 --out a 1.row").contains("no option --threshold"));
        assert!(wrong("split --threshold 2 --ids 1,2 --out d k l").contains("2 are named"));
        assert!(wrong("read --out d a b").contains("one SHEETFILE is wanted"));
        assert!(wrong("read --threshold 2 --out d a").contains("no option --threshold"));
        assert!(wrong("split -t 2 --ids 1,2 --out d k").contains("no option -t"));
    }

    #[test]
    fn numbers_are_plain_digits() {
        let ids = |ids| wrong(&format!("split --threshold 2 --ids {ids} --out d k"));
        assert!(ids("1,256").contains("256 is out of range"));
        assert!(ids("1,99999999999999999999").contains("out of range"));
        assert!(ids("1,,2").contains("'' is not a number"));
        assert!(ids("1,-2").contains("'-2' is not a number"));
        assert!(ids("1,2,01").contains("1 twice"));
        for threshold in ["two", "-1", "+2", "2.0", "0x2"] {
            let line = format!("split --threshold {threshold} --ids 1,2 --out d k");
            assert!(wrong(&line).contains("is not a number"));
            let line = format!("sheet --threshold {threshold} 1.row");
            assert!(wrong(&line).contains("See 'desk sheet --help'"));
        }
    }
}
