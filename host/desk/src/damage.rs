//! What a sheet has at the line where a text stops being one, and what the text has there instead.
//!
//! The library alone decides that a text is no sheet, and at which line. Here are only words for it.
//! They show no digit of a value, and name one a hex digit at most: what is read is as secret as a
//! sheet.

use vsss::{MAX_SECRET, MAX_SHARES};

use crate::words::{counted, grouped};

const LINE_FEED: u8 = b'\n';
const TAB: u8 = b'\t';

/// Words for a text that the library refuses at this line.
pub fn explain(text: &[u8], line: usize) -> String {
    let lines: Vec<&[u8]> = text.split_inclusive(|&c| c == LINE_FEED).collect();
    let (expected, found) = match Awaited::at(&lines, line) {
        Awaited::Head => (head_words(), found(&lines, line, &HEAD)),
        Awaited::Row { count, values } => (
            format!("row {line} of {count}: {}", row_words(values)),
            found(&lines, line, &row_fields(values)),
        ),
        Awaited::End { count } => (
            format!("nothing, since line 0 says {}", counted(count, "row")),
            "there is more".to_string(),
        ),
    };
    format!("line {line}, counting from 0: expected {expected}; {found}")
}

/// What a sheet has at a line.
enum Awaited {
    Head,
    Row { count: usize, values: usize },
    End { count: usize },
}

impl Awaited {
    /// By the first line, which is right where a later one is refused.
    fn at(lines: &[&[u8]], line: usize) -> Awaited {
        let numbers: Vec<usize> = match lines.first() {
            Some(head) if line > 0 => fields_of(head).filter_map(number).collect(),
            _ => Vec::new(),
        };
        match numbers[..] {
            [_, count, values] if line <= count => Awaited::Row { count, values },
            [_, count, _] => Awaited::End { count },
            _ => Awaited::Head,
        }
    }
}

/// The fields of a line, which end with a tab or the line.
fn fields_of(line: &[u8]) -> impl Iterator<Item = &[u8]> {
    line.split(|&c| c == TAB || c == LINE_FEED)
}

fn number(digits: &[u8]) -> Option<usize> {
    std::str::from_utf8(digits).ok()?.parse().ok()
}

fn head_words() -> String {
    format!(
        "'seal', the threshold from 2 to {MAX_SHARES}, the number of rows from 1 to {MAX_SHARES} and \
         the number of values in a row from 1 to {}, in decimal, parted by tabs and ended by a line \
         feed",
        grouped(MAX_SECRET)
    )
}

fn row_words(values: usize) -> String {
    format!(
        "'row', an identifier from 1 to {MAX_SHARES} in decimal and {} lower-case hex digits, parted \
         by tabs and ended by a line feed",
        grouped(2 * values)
    )
}

enum Field {
    Word(&'static [u8]),
    /// From the first number to the second, without leading zeros.
    Number(usize, usize),
    /// A number before a tab, right as a whole or not at all: where the tab is missing, how many digits
    /// are right would tell of the values behind them.
    Identifier,
    HexDigits(usize),
}

const TAB_ALONE: Field = Field::Word(&[TAB]);

const HEAD: [Field; 6] = [
    Field::Word(b"seal\t"),
    Field::Number(2, MAX_SHARES),
    TAB_ALONE,
    Field::Number(1, MAX_SHARES),
    TAB_ALONE,
    Field::Number(1, MAX_SECRET),
];

fn row_fields(values: usize) -> [Field; 4] {
    [
        Field::Word(b"row\t"),
        Field::Identifier,
        TAB_ALONE,
        Field::HexDigits(2 * values),
    ]
}

/// What the text has at a line whose fields should be these.
fn found(lines: &[&[u8]], line: usize, fields: &[Field]) -> String {
    let here = match lines.get(line) {
        Some(here) => *here,
        None => return "the text ends before it".to_string(),
    };
    let (here, is_ended) = match here.strip_suffix(&[LINE_FEED]) {
        Some(here) => (here, true),
        None => (here, false),
    };
    let (count, unfit) = fit(here, fields);
    match (here.get(count), unfit, is_ended) {
        (Some(&other), ..) if count == 0 => format!("it begins with {}", named(other)),
        (Some(_), Some(Field::Identifier), _) => {
            format!("{}, then comes no identifier before a tab", right(count))
        }
        (Some(&other), ..) => format!("{}, then comes {}", right(count), named(other)),
        (None, None, true) => repeated(lines, line),
        (None, None, false) => "its line feed is missing".to_string(),
        (None, Some(_), true) if count == 0 => "it is empty".to_string(),
        (None, Some(_), true) => format!("{}, then it ends", right(count)),
        (None, Some(_), false) => format!("{}, then the text ends", right(count)),
    }
}

fn right(count: usize) -> String {
    match count {
        1 => "its first character is right".to_string(),
        _ => format!("its first {} characters are right", grouped(count)),
    }
}

fn named(character: u8) -> &'static str {
    match character {
        TAB => "a tab",
        b' ' => "a space",
        b'\r' => "a carriage return",
        _ if is_hex_digit(character) => "a hex digit",
        b'A'..=b'Z' => "a capital letter",
        b'a'..=b'z' => "a letter",
        _ => "another character",
    }
}

/// Where nothing else is wrong with a row, its identifier is that of a row above.
fn repeated(lines: &[&[u8]], line: usize) -> String {
    let id = |line: usize| fields_of(lines[line]).nth(1).and_then(number);
    match ((1..line).find(|&above| id(above) == id(line)), id(line)) {
        (Some(above), Some(id)) => format!("its identifier, {id}, is that of line {above} already"),
        _ => "it is another".to_string(),
    }
}

fn is_hex_digit(character: u8) -> bool {
    matches!(character, b'0'..=b'9' | b'a'..=b'f')
}

/// How many characters of a line are right: such a line can begin with them. And the field that they
/// do not go through, unless they are all that it should have.
fn fit<'a>(line: &[u8], fields: &'a [Field]) -> (usize, Option<&'a Field>) {
    let mut count = 0;
    for field in fields {
        let (more, is_whole) = fit_field(&line[count..], field);
        count += more;
        if !is_whole {
            return (count, Some(field));
        }
    }
    (count, None)
}

fn fit_field(line: &[u8], field: &Field) -> (usize, bool) {
    match *field {
        Field::Word(word) => {
            let count = line.iter().zip(word).take_while(|(a, b)| a == b).count();
            (count, count == word.len())
        }
        Field::Number(least, most) => fit_number(line, least, most),
        Field::Identifier => match fit_number(line, 1, MAX_SHARES) {
            (count, true) if line.get(count) == Some(&TAB) => (count, true),
            _ => (0, false),
        },
        Field::HexDigits(needed) => {
            let digits = line.iter().take(needed);
            let count = digits.take_while(|&&c| is_hex_digit(c)).count();
            (count, count == needed)
        }
    }
}

fn fit_number(line: &[u8], least: usize, most: usize) -> (usize, bool) {
    let (mut number, mut count) = (0, 0);
    for digit in line.iter().take_while(|c| c.is_ascii_digit()) {
        let longer = 10 * number + usize::from(digit - b'0');
        if longer == 0 || longer > most {
            break;
        }
        number = longer;
        count += 1;
    }
    (count, number >= least)
}

#[cfg(test)]
mod tests {
    use super::*;
    use vsss::{read_sheet, Refusal};

    const SHEET: &str = "seal\t2\t3\t2\nrow\t1\t2fab\nrow\t20\t2000\nrow\t3\t25ff\n";

    /// What is said behind 'expected .. ;', where the library refuses.
    fn found_in(text: &[u8]) -> Option<String> {
        let line = match read_sheet(text) {
            Ok(_) => return None,
            Err(Refusal::InvalidSheet { line }) => line,
            Err(other) => panic!("{other}"),
        };
        let said = explain(text, line);
        assert!(said.starts_with(&format!("line {line}, counting from 0: expected ")));
        let (_, found) = said.rsplit_once("; ").unwrap();
        Some(found.to_string())
    }

    fn changed(from: &str, to: &str) -> String {
        assert!(SHEET.contains(from), "{from}");
        found_in(SHEET.replacen(from, to, 1).as_bytes()).unwrap()
    }

    #[test]
    fn the_first_wrong_character_is_named() {
        let wrong = [
            ("seal", "Seal", "it begins with a capital letter"),
            (
                "seal",
                "s",
                "its first character is right, then comes a tab",
            ),
            (
                "seal\t2",
                "seal 2",
                "its first 4 characters are right, then comes a space",
            ),
            (
                "seal\t2",
                "seal\t1",
                "its first 6 characters are right, then comes a tab",
            ),
            (
                "seal\t2",
                "seal\t02",
                "its first 5 characters are right, then comes a hex digit",
            ),
            (
                "seal\t2",
                "seal\t256",
                "its first 7 characters are right, then comes a hex digit",
            ),
            (
                "\t2\n",
                "\t2\r\n",
                "its first 10 characters are right, then comes a carriage return",
            ),
            (
                "\t2\n",
                "\n",
                "its first 8 characters are right, then it ends",
            ),
            ("seal\t2\t3\t2", "", "it is empty"),
            (
                "row\t20",
                "row20",
                "its first 3 characters are right, then comes a hex digit",
            ),
            (
                "row\t20\t2000",
                "row\t",
                "its first 4 characters are right, then it ends",
            ),
            (
                "2fab",
                "2fAb",
                "its first 8 characters are right, then comes a capital letter",
            ),
            (
                "2fab",
                "2fab0",
                "its first 10 characters are right, then comes a hex digit",
            ),
            (
                "2fab",
                "2faba",
                "its first 10 characters are right, then comes a hex digit",
            ),
            (
                "2fab",
                "2fa",
                "its first 9 characters are right, then it ends",
            ),
            (
                "2fab",
                "2fag",
                "its first 9 characters are right, then comes a letter",
            ),
            (
                "2fab",
                "2f-b",
                "its first 8 characters are right, then comes another character",
            ),
        ];
        for (from, to, said) in wrong {
            assert_eq!(changed(from, to), said);
        }
    }

    #[test]
    fn what_is_no_identifier_is_named_as_a_whole() {
        let said = "its first 4 characters are right, then comes no identifier before a tab";
        for wrong in ["\t", "0\t", "02\t", "256\t", "a\t", "20 "] {
            assert_eq!(changed("20\t", wrong), said);
        }
        assert_eq!(found_in(&SHEET.as_bytes()[..28]).unwrap(), said);
        // Without a tab, as many digits as can be are the identifier's. How many tells of the values.
        for values in ["00", "25", "2f", "f2", "ff"] {
            let text = format!("seal\t2\t1\t1\nrow\t1{values}\n");
            assert_eq!(found_in(text.as_bytes()).unwrap(), said);
        }
    }

    #[test]
    fn what_is_missing_or_too_much_is_named() {
        assert_eq!(changed("row\t3\t25ff\n", ""), "the text ends before it");
        assert_eq!(
            changed("row\t3", "row\t1"),
            "its identifier, 1, is that of line 1 already"
        );
        assert_eq!(changed("25ff\n", "25ff"), "its line feed is missing");
        assert_eq!(
            changed("25ff\n", "25f"),
            "its first 9 characters are right, then the text ends"
        );
        assert_eq!(changed("25ff\n", "25ff\n\n"), "there is more");
        assert_eq!(found_in(b"").unwrap(), "the text ends before it");
    }

    #[test]
    fn what_was_expected_is_named() {
        let rows = "line 2, counting from 0: expected row 2 of 3: 'row', an identifier from 1 to 255 \
                    in decimal and 4 lower-case hex digits, parted by tabs and ended by a line feed; ";
        assert!(explain(&SHEET.as_bytes()[..30], 2).starts_with(rows));
        let end =
            "line 4, counting from 0: expected nothing, since line 0 says 3 rows; there is more";
        assert_eq!(explain(format!("{SHEET}x").as_bytes(), 4), end);
    }

    /// Each character replaced by each, and each left out: what is wrong is always found.
    #[test]
    fn every_damage_has_words() {
        let sheet = SHEET.as_bytes();
        for place in 0..sheet.len() {
            let with = |new: &[u8]| [&sheet[..place], new, &sheet[place + 1..]].concat();
            for text in (0..=255).map(|byte| with(&[byte])).chain([with(&[])]) {
                assert_ne!(found_in(&text).as_deref(), Some("it is another"));
            }
        }
    }
}
