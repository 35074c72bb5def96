//! The library gives the answers of the stored sample, and agrees with all that is at hand on generated calls.

use compare::Library;
use oracle::compare::reading;
use oracle::generate::damaged;
use oracle::reference::{self, row_value};
use oracle::{Outcome, Random, Sharing, SheetCall};
use vsss::entry::{read_sheet, write_sheet};
use vsss::{MAX_SECRET, MAX_SHARES};

#[test]
fn the_sample_is_answered_alike() {
    let replayed = oracle::sample::replay(
        |t, n, secret, ids, coefficients, out| Library.split(t, n, secret, ids, coefficients, out),
        |rows, lengths, out| Library.combine(rows, lengths, out),
    )
    .unwrap();
    assert_eq!((replayed.split, replayed.combine), (520, 345));
}

#[test]
fn generated_calls_are_answered_alike() {
    oracle::compare::run(&Library, 100_000, 1).assert_clean();
}

#[test]
fn the_stored_sheets_are_written_alike() {
    assert_eq!(oracle::sample::replay_sheets(write_sheet), Ok(49));
}

#[test]
fn generated_sheets_are_written_alike() {
    oracle::compare::sheets::run(write_sheet, 20_000, 1).assert_clean();
}

#[test]
fn generated_texts_are_read_alike() {
    reading::run(read_sheet, 20_000, 1).assert_clean();
}

#[test]
fn what_is_written_is_read_and_what_is_read_is_written() {
    assert_eq!(
        reading::there_and_back(write_sheet, read_sheet, 2000, 1),
        Ok(())
    );
}

#[test]
fn the_limits_are_those_of_the_plain_reading() {
    assert_eq!(
        (MAX_SECRET, MAX_SHARES),
        (reference::MAX_SECRET, reference::MAX_LIMIT)
    );
}

/// The most rows with the highest threshold and the longest secret: 16.7 MB of rows from 16.6 MB of
/// coefficients. Nothing overflows: values are what they should be at either end and in between, the
/// rows give the secret back in any order, and so they do as a sheet of 33 MB.
#[test]
fn the_largest_split_comes_back_also_from_a_sheet() {
    let mut random = Random::from_seed(1);
    let width = MAX_SECRET + 1;
    let secret = random.bytes(MAX_SECRET);
    let ids = random.distinct_ids(MAX_SHARES);
    let above = MAX_SHARES - 1;
    let coefficients = random.bytes(MAX_SECRET * above);
    let mut out = vec![0; MAX_SHARES * width];
    let done = Library.split(
        MAX_SHARES,
        MAX_SHARES,
        &secret,
        &ids,
        &coefficients,
        &mut out,
    );
    assert_eq!(done, Outcome::Done(out.len()));

    let mut rows: Vec<Vec<u8>> = out.chunks_exact(width).map(<[u8]>::to_vec).collect();
    let ends = [0, 1, MAX_SECRET - 2, MAX_SECRET - 1];
    let within: [usize; 12] = std::array::from_fn(|_| random.between(2, MAX_SECRET - 3));
    for place in ends.into_iter().chain(within) {
        let of_byte = &coefficients[place * above..][..above];
        for (row, &id) in rows.iter().zip(&ids) {
            assert_eq!(row[0], id);
            assert_eq!(row[1 + place], row_value(secret[place], of_byte, id));
        }
    }

    random.shuffle(&mut rows);
    let mut again = vec![0; MAX_SECRET];
    let lengths = vec![width as u32; MAX_SHARES];
    let done = Library.combine(&rows.concat(), &lengths, &mut again);
    assert_eq!(done, Outcome::Done(MAX_SECRET));
    assert!(again == secret, "another secret");

    let sheet = SheetCall::of_rows(MAX_SHARES, &rows);
    assert_eq!(reading::comes_back(write_sheet, read_sheet, &sheet), Ok(()));
}

/// The library's own texts, damaged in every single way.
#[test]
fn damaged_sheets_are_read_alike() {
    let rows: [[u8; 4]; 3] = [[7, 0, 1, 2], [200, 9, 10, 255], [30, 0x7f, 0x80, 0xaf]];
    for count in 1..=rows.len() {
        let text = vsss::sheet(12, &rows[..count]).unwrap();
        reading::run_texts(read_sheet, damaged(&text), 1).assert_clean();
    }
}
