//! Document 02's reader: the plain reading, the line by line reader beside it, and wrong readers
//! that the comparison has to find.

use oracle::Outcome::{self, Done};
use oracle::compare::reading::{first_fault, run, there_and_back};
use oracle::generate::{damaged, random_read_call, read_boundary_calls};
use oracle::reference::{
    Continuations, Found, MAX_SECRET, read_sheet, sheet_of, sheet_text, write_sheet,
};
use oracle::sample::{SHEET, sheet_records};
use oracle::{Random, ReadCall, line_reader};
use std::sync::LazyLock;

const LENT: u8 = 0xee;
const G: &str = "seal\t2\t3\t1\nrow\t1\t2f\nrow\t2\t20\nrow\t3\t25\n";

fn line_of(text: &str) -> usize {
    sheet_of(text.as_bytes()).expect_err("it is a sheet")
}

#[test]
fn the_example_of_document_02() {
    let found = sheet_of(G.as_bytes()).unwrap();
    assert_eq!((found.threshold, found.count, found.length), (2, 3, 1));
    assert_eq!(found.rows, [[1, 0x2f], [2, 0x20], [3, 0x25]]);
}

#[test]
fn the_outputs_are_written_or_left() {
    let read = |text: &str, head, room| {
        let (mut head, mut out) = (vec![LENT; head], vec![LENT; room]);
        let outcome = read_sheet(text.as_bytes(), &mut head, &mut out);
        (outcome, head, out)
    };
    let head = [2, 0, 0, 0, 3, 0, 0, 0, 1, 0, 0, 0, LENT];
    let out = [1, 0x2f, 2, 0x20, 3, 0x25, LENT];
    assert_eq!(read(G, 13, 7), (Done(6), head.to_vec(), out.to_vec()));
    assert_eq!(read(G, 12, 6).0, Done(6));
    let untouched = |outcome, head, room| (outcome, vec![LENT; head], vec![LENT; room]);
    for (head, room) in [(11, 6), (12, 5), (0, 0)] {
        let refused = untouched(Outcome::refused(12), head, room);
        assert_eq!(read(G, head, room), refused);
    }
    // What is no sheet is that, whatever the room.
    let refused = Outcome::refused_at(14, 3, 0);
    assert_eq!(read(G.trim_end(), 0, 0), untouched(refused, 0, 0));
}

#[test]
fn the_line_is_the_first_that_no_sheet_has_there() {
    let cases = [
        ("", 0),
        ("seal\t2\t3\t1", 0),
        ("seal\t2\t3\t1\n", 1),
        ("seal\t2\t3\t1\nrow\t1\t2f", 1),
        ("seal\t2\t3\t1\nrow\t1\t2f\n", 2),
        ("seal\t1\t3\t1\n", 0),
        ("seal\t256\t3\t1\n", 0),
        ("seal\t2\t256\t1\n", 0),
        ("seal\t2\t3\t0\n", 0),
        ("seal\t2\t3\t01\n", 0),
        ("seal\t2\t3\t1\t\n", 0),
        ("seal\t2\t3\t1\r\nrow\t1\t2f\n", 0),
        ("seal\t2\t3\t1\n\nrow\t1\t2f\n", 1),
        ("seal\t2\t3\t1\nrow\t0\t2f\n", 1),
        ("seal\t2\t3\t1\nrow\t256\t2f\n", 1),
        ("seal\t2\t3\t1\nrow\t1\t2F\n", 1),
        ("seal\t2\t3\t1\nrow\t1\t2f2f\n", 1),
        // A repeat is one where the identifier stands again.
        ("seal\t2\t3\t1\nrow\t1\t2f\nrow\t2\t20\nrow\t1\t25\n", 3),
        // A line that cannot be counts before one that is missing.
        ("seal\t2\t3\t1\nrow\t1\t2\nrow", 1),
        ("seal\t2\t1\t1\nrow\t1\t2f\n\n", 2),
        ("seal\t2\t1\t1\nrow\t1\t2f\nx", 2),
    ];
    for (text, line) in cases {
        assert_eq!(line_of(text), line, "{text:?}");
    }
}

#[test]
fn what_was_stored_is_read() {
    for (line, (call, answer)) in sheet_records(SHEET).unwrap() {
        if let Done(_) = answer.outcome {
            let found = sheet_of(&answer.text).unwrap();
            let rows = (found.threshold, found.rows.concat());
            assert!(rows == (call.threshold, call.rows), "line {line}");
        }
    }
}

/// The longest beginning of the text that is said to have a continuation, continued by whatever can
/// follow.
fn continued(text: &[u8]) -> (Vec<u8>, Found) {
    let mut sheet = Vec::new();
    let mut so_far = Continuations::of_nothing();
    for &c in text {
        let Some(next) = so_far.clone().after(c) else {
            break;
        };
        sheet.push(c);
        so_far = next;
    }
    while let Some(c) = so_far.next_character() {
        sheet.push(c);
        so_far = so_far.after(c).expect("it can follow");
    }
    (sheet, so_far.sheet().expect("nothing can follow"))
}

/// One of the two ways in which `Continuations` could be wrong. The other, that it sees none where
/// there are some, shows beside the line reader.
#[test]
fn what_is_said_to_have_a_continuation_has_one() {
    for text in damaged(G.as_bytes()) {
        let (sheet, found) = continued(&text);
        let lengths = vec![(found.length as u32 + 1).to_le_bytes(); found.count];
        let written = sheet_text(found.threshold, &found.rows.concat(), &lengths.concat());
        assert!(
            written.unwrap().as_bytes() == sheet,
            "{:?}",
            text.escape_ascii()
        );
    }
}

#[test]
fn the_line_reader_reads_alike() {
    let mut random = Random::from_seed(7);
    let some: Vec<ReadCall> = (0..20_000).map(|_| random_read_call(&mut random)).collect();
    let mut rows = Vec::new();
    for call in BOUNDARY.iter().chain(&some) {
        let read = line_reader::read(&call.text, &mut rows);
        let read = read.map(|head| (head.threshold, head.rows, head.values, rows.clone()));
        let plain = sheet_of(&call.text).map(|found| {
            (
                found.threshold,
                found.count,
                found.length,
                found.rows.concat(),
            )
        });
        assert!(read == plain, "{call}");
    }
}

fn plain(text: &[u8], head: &mut [u8], out: &mut [u8]) -> u64 {
    read_sheet(text, head, out).to_word()
}

#[test]
fn nothing_is_found_where_nothing_is_planted() {
    let summary = run(plain, 10_000, 7);
    println!("{summary}");
    summary.assert_clean();
    let tally = summary.tally;
    assert!(tally.done > 5000, "{tally}");
    for number in [12, 14] {
        assert!(tally.refused[number] > 2000, "{number}: {tally}");
    }
    let write = |threshold, rows: &[u8], lengths: &[u8], out: &mut [u8]| {
        write_sheet(threshold, rows, lengths, out).to_word()
    };
    there_and_back(write, plain, 1000, 7).unwrap();
}

static BOUNDARY: LazyLock<Vec<ReadCall>> = LazyLock::new(read_boundary_calls);

fn is_found(read: impl Fn(&[u8], &mut [u8], &mut [u8]) -> u64) -> bool {
    first_fault(read, &BOUNDARY, 7).is_some()
}

/// Whether a reader is found out that first mends the text.
fn mending_is_found(mend: impl Fn(&str) -> String) -> bool {
    is_found(|text, head, out| match str::from_utf8(text) {
        Ok(text) => plain(mend(text).as_bytes(), head, out),
        Err(_) => plain(text, head, out),
    })
}

/// Whether a reader is found out that does as the plain reading and then something else.
fn change_is_found(change: impl Fn(Outcome, &mut [u8], &mut [u8]) -> Outcome) -> bool {
    is_found(|text, head, out| {
        let outcome = read_sheet(text, head, out);
        change(outcome, head, out).to_word()
    })
}

#[test]
fn readers_that_take_too_much_are_found() {
    assert!(mending_is_found(str::to_ascii_lowercase));
    assert!(mending_is_found(|text| text.replace('\r', "")));
    assert!(mending_is_found(|text| text.replacen(' ', "\t", 1)));
    assert!(mending_is_found(|text| text.replacen("\t0", "\t", 1)));
    assert!(mending_is_found(|text| text.replacen("\t+", "\t", 1)));
    assert!(mending_is_found(|text| text.trim_start().to_string()));
    // The last line feed may be missing, and blank lines may follow.
    assert!(mending_is_found(|text| format!(
        "{}\n",
        text.trim_end_matches('\n')
    )));
    // A blank line between.
    assert!(mending_is_found(|text| text.replacen("\n\n", "\n", 1)));
    // What follows the last row is not looked at.
    assert!(is_found(|text, head, out| {
        let lines = text.split_inclusive(|&c| c == b'\n');
        let kept = sheet_of(text).map_or_else(|line| line, |_| usize::MAX);
        let without: Vec<u8> = lines.take(kept).flatten().copied().collect();
        match sheet_of(&without) {
            Ok(_) => plain(&without, head, out),
            Err(_) => plain(text, head, out),
        }
    }));
}

#[test]
fn wrong_bounds_are_found() {
    let [longest, longer] = [MAX_SECRET, MAX_SECRET + 1].map(|number| number.to_string());
    // A number that is taken for another.
    for (field, wrong, right) in [
        ("seal\t", "1", "2"),
        ("seal\t", "256", "255"),
        ("seal\t2\t", "256", "255"),
        ("seal\t2\t", "0", "1"),
        ("seal\t2\t1\t", "0", "1"),
        ("seal\t2\t1\t", &longer, &longest),
        // Modulo 2^16, 2^32 and 2^64.
        ("seal\t2\t1\t", "65537", "1"),
        ("seal\t2\t", "4294967297", "1"),
        ("seal\t", "18446744073709551618", "2"),
        ("row\t", "256", "255"),
        ("row\t", "0", "1"),
        ("row\t", "65538", "2"),
    ] {
        let (from, to) = (format!("{field}{wrong}\t"), format!("{field}{right}\t"));
        let (from_end, to_end) = (format!("{field}{wrong}\n"), format!("{field}{right}\n"));
        let found = mending_is_found(|text| {
            let text = text.replacen(&from, &to, 1);
            text.replacen(&from_end, &to_end, 1)
        });
        assert!(found, "{field}{wrong}");
    }
    // The highest numbers are refused.
    let longest = format!("\t{longest}\n");
    for word in ["seal\t255\t", "seal\t3\t255\t", &longest, "row\t255\t"] {
        let found = is_found(|text, head, out| {
            match text.windows(word.len()).any(|part| part == word.as_bytes()) {
                true => Outcome::refused_at(14, 0, 0).to_word(),
                false => plain(text, head, out),
            }
        });
        assert!(found, "{word}");
    }
}

#[test]
fn wrong_lines_are_found() {
    let changed = |change: fn(usize) -> (usize, usize)| {
        change_is_found(|outcome, _, _| match outcome {
            Outcome::Refused {
                number: 14, first, ..
            } => {
                let (first, second) = change(first);
                Outcome::refused_at(14, first, second)
            }
            outcome => outcome,
        })
    };
    assert!(changed(|line| (line + 1, 0)));
    assert!(changed(|line| (line.min(255), 0)));
    assert!(changed(|line| (line, line)));
    // What is missing counts at the last line that is there.
    assert!(is_found(|text, head, out| {
        let complete = text.iter().filter(|&&c| c == b'\n').count();
        match read_sheet(text, head, out) {
            Outcome::Refused {
                number: 14, first, ..
            } if first == complete && first > 0 => Outcome::refused_at(14, first - 1, 0).to_word(),
            outcome => outcome.to_word(),
        }
    }));
    // A count of more rows than can be is judged only where the rows end.
    assert!(is_found(|text, head, out| {
        match mended_count(text) {
            Some(text) => plain(&text, head, out),
            None => plain(text, head, out),
        }
    }));
    // A repeat counts at the line of the first that has the identifier.
    assert!(is_found(|text, head, out| {
        let outcome = read_sheet(text, head, out);
        match repeated_line(text, outcome) {
            Some(line) => Outcome::refused_at(14, line, 0).to_word(),
            None => outcome.to_word(),
        }
    }));
}

/// The text with 255 for a count of rows that is beyond.
fn mended_count(text: &[u8]) -> Option<Vec<u8>> {
    let text = str::from_utf8(text).ok()?;
    let (head, rows) = text.split_once('\n')?;
    let fields: Vec<&str> = head.split('\t').collect();
    let [seal, threshold, count, length] = fields[..] else {
        return None;
    };
    let count = count.parse::<u64>().ok()?.min(255);
    Some(format!("{seal}\t{threshold}\t{count}\t{length}\n{rows}").into_bytes())
}

/// Where a text is refused for the identifier of a line, the earlier line that has it.
fn repeated_line(text: &[u8], outcome: Outcome) -> Option<usize> {
    let Outcome::Refused {
        number: 14, first, ..
    } = outcome
    else {
        return None;
    };
    let lines: Vec<&[u8]> = text.split(|&c| c == b'\n').collect();
    let id = |line: usize| lines.get(line)?.split(|&c| c == b'\t').nth(1);
    (1..first).find(|&line| id(line) == id(first))
}

#[test]
fn wrong_orders_are_found() {
    let no_room = Outcome::refused(12).to_word();
    // The room of the head before the text, and never.
    assert!(is_found(|text, head, out| match head.len() {
        0..12 => no_room,
        _ => plain(text, head, out),
    }));
    assert!(is_found(|text, head, out| match head.len() {
        0..12 => plain(text, &mut [0; 12], out),
        _ => plain(text, head, out),
    }));
    // The room of the rows before the text; one byte more than they take.
    assert!(is_found(|text, head, out| match out.len() {
        0 => no_room,
        _ => plain(text, head, out),
    }));
    assert!(change_is_found(|outcome, _, out| match outcome {
        Done(count) if count == out.len() => Outcome::refused(12),
        outcome => outcome,
    }));
}

#[test]
fn wrong_memory_is_found() {
    let flip = |bytes: &mut [u8], place: usize| {
        if let Some(byte) = bytes.get_mut(place) {
            *byte ^= 1;
        }
    };
    // A byte behind what is written.
    assert!(change_is_found(|outcome, head, _| {
        if let Done(_) = outcome {
            flip(head, 12);
        }
        outcome
    }));
    assert!(change_is_found(|outcome, _, out| {
        if let Done(count) = outcome {
            flip(out, count);
        }
        outcome
    }));
    // A byte of what is written: the highest of a number, the last value.
    assert!(change_is_found(|outcome, head, _| {
        if let Done(_) = outcome {
            flip(head, 11);
        }
        outcome
    }));
    assert!(change_is_found(|outcome, _, out| {
        if let Done(count) = outcome {
            flip(out, count - 1);
        }
        outcome
    }));
    // The start of what is refused.
    for number in [12, 14] {
        assert!(change_is_found(|outcome, head, _| {
            if outcome.number() == number {
                flip(head, 0);
            }
            outcome
        }));
        assert!(change_is_found(|outcome, _, out| {
            if outcome.number() == number {
                flip(out, 0);
            }
            outcome
        }));
    }
    // A word with more in it than its answer.
    assert!(is_found(|text, head, out| plain(text, head, out) | 1 << 63));
}

#[test]
fn what_does_not_come_back_is_found() {
    let write = |threshold, rows: &[u8], lengths: &[u8], out: &mut [u8]| {
        write_sheet(threshold, rows, lengths, out).to_word()
    };
    let other_threshold = |text: &[u8], head: &mut [u8], out: &mut [u8]| {
        let word = plain(text, head, out);
        head[0] ^= 1;
        word
    };
    assert!(there_and_back(write, other_threshold, 1, 7).is_err());
    let other_row = |text: &[u8], head: &mut [u8], out: &mut [u8]| {
        let word = plain(text, head, out);
        out[1] ^= 1;
        word
    };
    assert!(there_and_back(write, other_row, 1, 7).is_err());
}
