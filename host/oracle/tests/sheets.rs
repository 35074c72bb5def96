//! Document 02's sheets: the plain reading, the stored sheets, and wrong writers that the comparison
//! has to find.

mod pair;

use oracle::Outcome::{self, Done};
use oracle::compare::sheets;
use oracle::reference::{MAX_SECRET, write_sheet};
use oracle::sample::{SHEET, replay_sheets, sheet_records};

const LENT: u8 = 0xee;

fn written(threshold: usize, rows: &[u8], lengths: &[u32], room: usize) -> (Outcome, Vec<u8>) {
    let lengths: Vec<u8> = lengths.iter().flat_map(|l| l.to_le_bytes()).collect();
    let mut out = vec![LENT; room];
    let outcome = write_sheet(threshold, rows, &lengths, &mut out);
    (outcome, out)
}

fn refusal(threshold: usize, rows: &[u8], lengths: &[u32]) -> Outcome {
    let (outcome, out) = written(threshold, rows, lengths, 19);
    assert_eq!(out, [LENT; 19]);
    outcome
}

#[test]
fn the_example_of_document_02() {
    let text = b"seal\t2\t3\t1\nrow\t1\t2f\nrow\t2\t20\nrow\t3\t25\n\xee\xee";
    let g = [1, 0x2f, 2, 0x20, 3, 0x25];
    assert_eq!(written(2, &g, &[2; 3], 40), (Done(38), text.to_vec()));
    assert_eq!(written(2, &g, &[2; 3], 38).0, Done(38));
    assert_eq!(
        written(2, &g, &[2; 3], 37),
        (Outcome::refused(12), vec![LENT; 37])
    );
    let own = b"seal\t255\t1\t3\nrow\t200\t000aff\n";
    assert_eq!(
        written(255, &[200, 0, 10, 255], &[4], own.len()),
        (Done(own.len()), own.to_vec())
    );
}

#[test]
fn what_is_refused_in_which_order() {
    let refused = Outcome::refused;
    assert_eq!(refusal(0, &[1], &[]), refused(13));
    assert_eq!(refusal(0, &[], &[]), refused(4));
    assert_eq!(refusal(0, &[0], &[1]), refused(8));
    assert_eq!(refusal(0, &[0, 9, 0], &[2, 1]), refused(8));
    let zero = Outcome::refused_at(6, 2, 0);
    assert_eq!(refusal(0, &[5, 9, 5, 9, 0, 9], &[2; 3]), zero);
    let twice = Outcome::refused_at(7, 1, 2);
    assert_eq!(refusal(0, &[5, 9, 7, 9, 7, 9, 5, 9], &[2; 4]), twice);
    let longer = [1; MAX_SECRET + 2];
    assert_eq!(refusal(0, &longer, &[longer.len() as u32]), refused(10));
    assert_eq!(refusal(1, &[1, 9], &[2]), refused(4));
    assert_eq!(refusal(256, &[1, 9], &[2]), refused(1));
    assert_eq!(refusal(255, &[1, 9], &[2]), refused(12));
    let odd = write_sheet(2, &[1, 9], &[2, 0, 0], &mut [LENT; 40]);
    assert_eq!(odd, refused(13));
    let many = write_sheet(2, &[], &[0; 4 * 65_536], &mut []);
    assert_eq!(many, refused(13));
}

fn plain(threshold: usize, rows: &[u8], lengths: &[u8], out: &mut [u8]) -> u64 {
    write_sheet(threshold, rows, lengths, out).to_word()
}

#[test]
fn the_stored_sheets_are_those_of_the_plain_reading() {
    assert!(oracle::sheet_sample::make() == SHEET, "make_sheet_sample");
    assert_eq!(replay_sheets(plain), Ok(49));
}

#[test]
fn the_stored_sheets_have_every_answer() {
    let records = sheet_records(SHEET).unwrap();
    let count = |number| {
        let with_it = |(_, (_, answer)): &&(_, (_, oracle::sample::SheetAnswer))| {
            answer.outcome.number() == number
        };
        records.iter().filter(with_it).count()
    };
    assert!(count(0) >= 25);
    for number in [1, 4, 6, 7, 8, 12, 13] {
        assert!(count(number) > 0, "{number}");
    }
    assert!(SHEET.len() < 100_000);
}

#[test]
fn a_stored_line_that_is_no_record_is_refused() {
    for line in [
        "",
        "2 2 0109 0 0 0",
        "2 2 0109 0 0 0 -",
        "2 2 0109 0 0 1 7365",
        "2 2 0109 c 0 0 7365",
        "2 2 0109 100 0 0 -",
        "2 2 010 c 0 0 -",
    ] {
        assert!(sheet_records(&format!("{line}\n")).is_err(), "{line}");
    }
    assert!(sheet_records("2 2 0109 c 0 0 -\n").is_ok());
}

/// Whether the comparison finds fault with a writer that does as the plain reading and then
/// something else, with the outcome and the output.
fn is_found(change: impl Fn(Outcome, &mut [u8]) -> Outcome) -> bool {
    faults(|threshold, rows, lengths, out| {
        let outcome = write_sheet(threshold, rows, lengths, out);
        change(outcome, out).to_word()
    }) > 0
}

fn faults(write: impl Fn(usize, &[u8], &[u8], &mut [u8]) -> u64) -> u64 {
    sheets::run(write, 1000, 7).tally.faults
}

/// What a done call has written.
fn text_of(outcome: Outcome, out: &mut [u8]) -> &mut [u8] {
    match outcome {
        Done(count) => &mut out[..count],
        Outcome::Refused { .. } => &mut [],
    }
}

#[test]
fn nothing_is_found_where_nothing_is_planted() {
    let summary = sheets::run(plain, 10_000, 7);
    println!("{summary}");
    summary.assert_clean();
    let tally = summary.tally;
    assert!(tally.done > 5000, "{tally}");
    for number in [1, 4, 6, 7, 8, 10, 12, 13] {
        assert!(tally.refused[number] > 20, "{number}: {tally}");
    }
}

#[test]
fn wrong_texts_are_found() {
    assert!(is_found(|outcome, out| {
        text_of(outcome, out).make_ascii_uppercase();
        outcome
    }));
    assert!(is_found(|outcome, out| {
        let blanks = text_of(outcome, out).iter_mut();
        blanks
            .filter(|byte| **byte == b'\t')
            .for_each(|byte| *byte = b' ');
        outcome
    }));
    assert!(is_found(|outcome, out| {
        if let Some(last) = text_of(outcome, out).last_mut() {
            *last = 0;
        }
        outcome
    }));
    // The last line feed left away.
    assert!(is_found(|outcome, _| match outcome {
        Done(count) => Done(count - 1),
        refused => refused,
    }));
    // The highest of all bytes is written wrong, and no other.
    assert!(is_found(|outcome, out| {
        let text = text_of(outcome, out);
        if let Some(place) = text.windows(2).position(|pair| pair == b"ff") {
            text[place] = b'e';
        }
        outcome
    }));
}

#[test]
fn wrong_memory_is_found() {
    // A byte behind the text.
    assert!(is_found(|outcome, out| {
        if let Done(count) = outcome {
            out[count..].iter_mut().take(1).for_each(|byte| *byte ^= 1);
        }
        outcome
    }));
    // The start of a text that has no room.
    assert!(is_found(|outcome, out| {
        if outcome == Outcome::refused(12) && !out.is_empty() {
            out[0] ^= 1;
        }
        outcome
    }));
    // A word with more in it than its answer.
    let found =
        faults(|threshold, rows, lengths, out| plain(threshold, rows, lengths, out) | 1 << 63);
    assert!(found > 0);
}

#[test]
fn wrong_places_are_found() {
    assert!(is_found(|outcome, _| match outcome {
        Outcome::Refused {
            number: 7,
            first,
            second,
        } => Outcome::refused_at(7, second, first),
        outcome => outcome,
    }));
    assert!(is_found(|outcome, _| match outcome {
        Outcome::Refused { number: 6, .. } => Outcome::refused(6),
        outcome => outcome,
    }));
    // The pair of document 01.
    let found = faults(|threshold, rows, lengths, out| {
        let outcome = write_sheet(threshold, rows, lengths, out);
        let width = lengths
            .first_chunk()
            .map_or(0, |four| u32::from_le_bytes(*four));
        pair::by_the_first_place(outcome, rows, width).to_word()
    });
    assert!(found > 0);
}

#[test]
fn wrong_orders_are_found() {
    let refused = |number| Outcome::refused(number).to_word();
    // The threshold before the rows.
    let found = faults(|threshold, rows, lengths, out| match threshold {
        0 | 1 => refused(4),
        256.. => refused(1),
        _ => plain(threshold, rows, lengths, out),
    });
    assert!(found > 0);
    // The threshold before 10 only.
    let found =
        faults(
            |threshold, rows, lengths, out| match plain(threshold, rows, lengths, out) {
                word if word == refused(10) && threshold < 2 => refused(4),
                word => word,
            },
        );
    assert!(found > 0);
    // The room before the threshold.
    let found =
        faults(
            |threshold, rows, lengths, out| match plain(threshold, rows, lengths, out) {
                word if word == refused(1) && out.is_empty() => refused(12),
                word => word,
            },
        );
    assert!(found > 0);
}

#[test]
fn wrong_bounds_are_found() {
    let refused = |number| Outcome::refused(number).to_word();
    // One row is not enough; there must be as many rows as the threshold.
    for enough in [|_| 2, |threshold| threshold] as [fn(usize) -> usize; 2] {
        let found =
            faults(
                |threshold, rows, lengths, out| match lengths.len() / 4 < enough(threshold) {
                    true => refused(4),
                    false => plain(threshold, rows, lengths, out),
                },
            );
        assert!(found > 0);
    }
    // The highest threshold, the longest rows and the most rows are refused.
    let found = faults(|threshold, rows, lengths, out| match threshold {
        255 => refused(1),
        _ => plain(threshold, rows, lengths, out),
    });
    assert!(found > 0);
    let longest = (MAX_SECRET as u32 + 1).to_le_bytes();
    let found = faults(
        |threshold, rows, lengths, out| match lengths.starts_with(&longest) {
            true => refused(10),
            false => plain(threshold, rows, lengths, out),
        },
    );
    assert!(found > 0);
    let found = faults(|threshold, rows, lengths, out| match lengths.len() {
        1020 => Outcome::refused_at(7, 0, 254).to_word(),
        _ => plain(threshold, rows, lengths, out),
    });
    assert!(found > 0);
}
