//! The library through the safe functions: values, bounds and refusals of document 01, and of
//! document 02's sheets, written and read.

use vsss::{
    combine, combine_into, entry, read_sheet, read_sheet_into, rows_room, sheet, sheet_into,
    sheet_room, split, split_into, Refusal, Row, MAX_SECRET, MAX_SHARES,
};

const LENT: u8 = 0xee;

/// A secret of one byte too many, and a row of it.
const LONGER: usize = MAX_SECRET + 1;
const LONGER_ROW: u32 = LONGER as u32 + 1;

/// What split answers, and what was lent for its output afterwards.
fn split_lent(
    threshold: usize,
    limit: usize,
    secret: &[u8],
    ids: &[u8],
    coefficients: &[u8],
    room: usize,
) -> (Result<usize, Refusal>, Vec<u8>) {
    let mut out = vec![LENT; room];
    let answer = split_into(threshold, limit, secret, ids, coefficients, &mut out);
    (answer, out)
}

fn combine_lent(rows: &[u8], lengths: &[u32], room: usize) -> (Result<usize, Refusal>, Vec<u8>) {
    let mut out = vec![LENT; room];
    let answer = combine_into(rows, lengths, &mut out);
    (answer, out)
}

fn sheet_lent(
    threshold: usize,
    rows: &[u8],
    lengths: &[u32],
    room: usize,
) -> (Result<usize, Refusal>, Vec<u8>) {
    let mut out = vec![LENT; room];
    let answer = sheet_into(threshold, rows, lengths, &mut out);
    (answer, out)
}

fn refused(refusal: Refusal, room: usize) -> (Result<usize, Refusal>, Vec<u8>) {
    (Err(refusal), vec![LENT; room])
}

fn bytes_of(rows: &[Row]) -> Vec<&[u8]> {
    rows.iter().map(Row::as_bytes).collect()
}

/// Bytes that differ from place to place; not random.
fn some_bytes(len: usize, seed: usize) -> Vec<u8> {
    (0..len)
        .map(|i| (((i * i + seed) * 181) >> 3) as u8)
        .collect()
}

/// A row for each identifier, with so many values.
fn rows_of<const N: usize>(ids: [u8; N], values: usize) -> [Vec<u8>; N] {
    ids.map(|id| vec![id; values + 1])
}

#[test]
fn values_g_to_j() {
    let g = split(2, &[1, 2, 3], &[0x2a], &[0x05]).unwrap();
    assert_eq!(bytes_of(&g), [[1, 0x2f], [2, 0x20], [3, 0x25]]);
    assert_eq!(combine(&g[..2]).unwrap()[..], [0x2a]);

    let i = split(3, &[1, 2, 3], &[0x2a], &[0x05, 0x07]).unwrap();
    assert_eq!(bytes_of(&i), [[1, 0x28], [2, 0x3c], [3, 0x3e]]);
    assert_eq!(combine(&i).unwrap()[..], [0x2a]);
    assert_eq!(combine(&i[..2]).unwrap()[..], [0x24]);
}

#[test]
fn repeated_identifiers_split_and_do_not_combine() {
    let rows = split(2, &[7, 7], &[0x2a], &[0x05]).unwrap();
    assert_eq!(bytes_of(&rows), [[7, 0x31], [7, 0x31]]);
    assert_eq!(
        combine(&rows).unwrap_err(),
        Refusal::SharingDuplicateIdentifier {
            first: 0,
            second: 1
        }
    );
}

#[test]
fn only_what_is_said_is_written() {
    let (answer, out) = split_lent(2, 2, &[0x2a], &[1, 2, 3, 0], &[0x05], 6);
    assert_eq!((answer, out), (Ok(4), vec![1, 0x2f, 2, 0x20, LENT, LENT]));
    let (answer, out) = combine_lent(&[1, 0x2f, 2, 0x20], &[2, 2], 3);
    assert_eq!((answer, out), (Ok(1), vec![0x2a, LENT, LENT]));
}

#[test]
fn any_rows_from_the_threshold_on_give_the_secret_back() {
    let secret = some_bytes(32, 1);
    let rows = split(3, &[200, 1, 17, 255, 90], &secret, &some_bytes(64, 2)).unwrap();
    for (a, b, c) in [(0, 1, 2), (4, 2, 0), (3, 1, 4)] {
        assert_eq!(
            combine(&[&rows[a], &rows[b], &rows[c]]).unwrap()[..],
            secret
        );
    }
    assert_eq!(combine(&rows).unwrap()[..], secret);
    assert_ne!(combine(&rows[..2]).unwrap()[..], secret);
}

#[test]
fn the_longest_secret_and_the_most_rows_are_accepted_and_one_more_is_not() {
    let secret = some_bytes(MAX_SECRET, 3);
    let ids: Vec<u8> = (1..=255).collect();
    let rows = split(2, &ids, &secret, &some_bytes(MAX_SECRET, 4)).unwrap();
    assert_eq!(rows.len(), MAX_SHARES);
    assert!(combine(&rows).unwrap()[..] == secret, "another secret");

    let longer = some_bytes(LONGER, 3);
    assert_eq!(
        split(2, &[1, 2], &longer, &longer).unwrap_err(),
        Refusal::TooLong
    );
    assert_eq!(
        combine(&rows_of([1, 2], LONGER)).unwrap_err(),
        Refusal::TooLong
    );
    let longest = combine(&rows_of([1, 2], MAX_SECRET)).unwrap();
    assert_eq!(longest.len(), MAX_SECRET);

    let more: Vec<u8> = (0..=255).collect();
    assert_eq!(
        split(2, &more, &[], &[]).unwrap_err(),
        Refusal::InvalidSizeRequest
    );
}

#[test]
fn split_refuses_in_its_order_and_changes_nothing() {
    let zero = |place| Refusal::SharingInvalidIdentifier { place };
    // Each call would also be refused by what the next ones are refused by.
    type Call<'a> = (usize, usize, &'a [u8], &'a [u8], &'a [u8], Refusal);
    let calls: [Call; 12] = [
        (0, 256, &[], &[], &[9], Refusal::InvalidSizeRequest),
        (300, 255, &[], &[], &[9], Refusal::InvalidSecret),
        (
            1,
            0,
            &[1],
            &[],
            &[9],
            Refusal::SharingLimitLessThanThreshold,
        ),
        (
            300,
            255,
            &[1],
            &[],
            &[9],
            Refusal::SharingLimitLessThanThreshold,
        ),
        (0, 0, &[1], &[], &[9], Refusal::SharingMinThreshold),
        (1, 2, &[1], &[], &[9], Refusal::SharingMinThreshold),
        (
            2,
            2,
            &[1; LONGER],
            &[],
            &[9],
            Refusal::NotEnoughShareIdentifiers,
        ),
        (2, 3, &[1; LONGER], &[1, 0], &[9], zero(1)),
        (
            2,
            3,
            &[1; LONGER],
            &[1, 2],
            &[9],
            Refusal::NotEnoughShareIdentifiers,
        ),
        (2, 3, &[1; LONGER], &[1, 2, 0, 0], &[9], zero(2)),
        (2, 2, &[1; LONGER], &[1, 2], &[9], Refusal::TooLong),
        (2, 2, &[1, 2], &[1, 2], &[9], Refusal::CoefficientCount),
    ];
    for (threshold, limit, secret, ids, coefficients, refusal) in calls {
        let got = split_lent(threshold, limit, secret, ids, coefficients, 3);
        assert_eq!(got, refused(refusal, 3));
    }
    assert_eq!(
        split_lent(2, 2, &[1], &[1, 2], &[9], 3),
        refused(Refusal::NoRoom, 3)
    );
    assert_eq!(split_lent(2, 2, &[1], &[1, 2], &[9], 4).0, Ok(4));
}

#[test]
fn combine_refuses_in_its_order_and_changes_nothing() {
    let zero = |place| Refusal::SharingInvalidIdentifier { place };
    let twice = |first, second| Refusal::SharingDuplicateIdentifier { first, second };
    let calls: [(&[u8], &[u32], Refusal); 10] = [
        (&[1], &[], Refusal::RowLengths),
        (&[0, 0], &[1], Refusal::RowLengths),
        (&[], &[], Refusal::SharingMinThreshold),
        (&[0], &[1], Refusal::SharingMinThreshold),
        (&[0, 0], &[1, 1], Refusal::InvalidShare),
        (&[0, 1, 0], &[2, 1], Refusal::InvalidShare),
        (&[5, 1, 5, 1, 0, 1, 0, 1], &[2, 2, 2, 2], zero(2)),
        (&[5, 1, 7, 1, 7, 1, 5, 1], &[2, 2, 2, 2], twice(1, 2)),
        (&[3, 1, 5, 1, 5, 1, 5, 1], &[2, 2, 2, 2], twice(1, 2)),
        (&[1, 1, 2, 1], &[2, 2], Refusal::NoRoom),
    ];
    for (rows, lengths, refusal) in calls {
        assert_eq!(combine_lent(rows, lengths, 0), refused(refusal, 0));
    }
    let long = rows_of([7, 7], LONGER).concat();
    assert_eq!(
        combine_lent(&long, &[LONGER_ROW; 2], 9),
        refused(twice(0, 1), 9)
    );
    assert_eq!(
        combine_lent(&[1; 65_536], &[1; 65_536], 9),
        refused(Refusal::RowLengths, 9)
    );
}

#[test]
fn rows_of_any_bytes_can_be_given() {
    assert_eq!(
        combine::<&[u8]>(&[]).unwrap_err(),
        Refusal::SharingMinThreshold
    );
    assert_eq!(
        combine(&[[1u8; 0], [2; 0]]).unwrap_err(),
        Refusal::InvalidShare
    );
    assert_eq!(
        combine(&[vec![1, 2], vec![2]]).unwrap_err(),
        Refusal::InvalidShare
    );
    assert_eq!(
        combine(&[[1, 5], [0, 5]]).unwrap_err(),
        Refusal::SharingInvalidIdentifier { place: 1 }
    );
}

/// What the safe function writes, as text.
fn sheet_text<R: AsRef<[u8]>>(threshold: usize, rows: &[R]) -> String {
    let sheet = sheet(threshold, rows).unwrap();
    String::from_utf8(sheet.to_vec()).unwrap()
}

#[test]
fn sheets_are_as_document_02_shows_them() {
    let g = split(2, &[1, 2, 3], &[0x2a], &[0x05]).unwrap();
    let text = "seal\t2\t3\t1\nrow\t1\t2f\nrow\t2\t20\nrow\t3\t25\n";
    assert_eq!(sheet_text(2, &g), text);
    assert_eq!(
        sheet_text(255, &[&g[2], &g[0]]),
        "seal\t255\t2\t1\nrow\t3\t25\nrow\t1\t2f\n"
    );
    assert_eq!(
        sheet_text(10, &[[100, 0x00, 0x09, 0xa0, 0xff]]),
        "seal\t10\t1\t4\nrow\t100\t0009a0ff\n"
    );
}

#[test]
fn a_sheet_takes_the_room_of_its_text_and_no_more() {
    let rows = [1, 0x2f, 2, 0x20];
    let (answer, out) = sheet_lent(2, &rows, &[2, 2], 30);
    assert_eq!(answer, Ok(29));
    assert_eq!(out, b"seal\t2\t2\t1\nrow\t1\t2f\nrow\t2\t20\n\xee");
    assert_eq!(sheet_lent(2, &rows, &[2, 2], 29).0, Ok(29));
    assert_eq!(
        sheet_lent(2, &rows, &[2, 2], 28),
        refused(Refusal::NoRoom, 28)
    );
}

#[test]
fn the_largest_sheet_is_written_and_one_more_is_not() {
    let rows: Vec<Vec<u8>> = (1..=255).map(|id| vec![id; MAX_SECRET + 1]).collect();
    let text = sheet_text(MAX_SHARES, &rows);
    let head = format!("seal\t255\t255\t{MAX_SECRET}");
    assert_eq!(text.lines().next(), Some(&head[..]));
    let last = format!("row\t255\t{}", "ff".repeat(MAX_SECRET));
    assert!(text.lines().last() == Some(&last), "another last row");
    // Room is reckoned with three digits for every identifier; 9 have one, and 90 two.
    assert_eq!(text.len(), sheet_room(MAX_SHARES, MAX_SECRET) - 2 * 9 - 90);

    assert_eq!(
        sheet(2, &rows_of([1], LONGER)).unwrap_err(),
        Refusal::TooLong
    );
    assert_eq!(
        sheet(256, &rows_of([1], MAX_SECRET)).unwrap_err(),
        Refusal::InvalidSizeRequest
    );
    assert_eq!(
        sheet(256, &vec![[1, 2]; 65_536]).unwrap_err(),
        Refusal::RowLengths
    );
}

#[test]
fn a_sheet_is_refused_in_its_order_and_changes_nothing() {
    let zero = |place| Refusal::SharingInvalidIdentifier { place };
    let twice = |first, second| Refusal::SharingDuplicateIdentifier { first, second };
    let long = rows_of([7, 7], LONGER).concat();
    let longer_than_any = &long[..LONGER + 1];
    // Each call would also be refused by what the next ones are refused by.
    type Call<'a> = (usize, &'a [u8], &'a [u32], Refusal);
    let calls: [Call; 15] = [
        (0, &[1], &[], Refusal::RowLengths),
        (0, &[0, 0], &[1], Refusal::RowLengths),
        (0, &[], &[], Refusal::SharingMinThreshold),
        (256, &[], &[], Refusal::SharingMinThreshold),
        (0, &[0], &[1], Refusal::InvalidShare),
        (0, &[0, 0], &[1, 1], Refusal::InvalidShare),
        (0, &[0, 1, 0], &[2, 1], Refusal::InvalidShare),
        (0, &[5, 1, 5, 1, 0, 1, 0, 1], &[2, 2, 2, 2], zero(2)),
        (0, &[5, 1, 7, 1, 7, 1, 5, 1], &[2, 2, 2, 2], twice(1, 2)),
        (0, &long, &[LONGER_ROW; 2], twice(0, 1)),
        (0, longer_than_any, &[LONGER_ROW], Refusal::TooLong),
        (1, &[9, 1], &[2], Refusal::SharingMinThreshold),
        (256, &[9, 1], &[2], Refusal::InvalidSizeRequest),
        (usize::MAX, &[9, 1], &[2], Refusal::InvalidSizeRequest),
        (255, &[9, 1], &[2], Refusal::NoRoom),
    ];
    for (threshold, rows, lengths, refusal) in calls {
        assert_eq!(sheet_lent(threshold, rows, lengths, 9), refused(refusal, 9));
    }
    assert_eq!(
        sheet::<&[u8]>(2, &[]).unwrap_err(),
        Refusal::SharingMinThreshold
    );
}

const EXAMPLE: &str = "seal\t2\t3\t1\nrow\t1\t2f\nrow\t2\t20\nrow\t3\t25\n";

fn line_refused(text: &str) -> usize {
    match read_sheet(text.as_bytes()) {
        Err(Refusal::InvalidSheet { line }) => line,
        other => panic!("{text:?} gives {other:?}"),
    }
}

#[test]
fn document_02s_sheet_is_read() {
    let sheet = read_sheet(EXAMPLE.as_bytes()).unwrap();
    assert_eq!(sheet.threshold, 2);
    assert_eq!(bytes_of(&sheet.rows), [[1, 0x2f], [2, 0x20], [3, 0x25]]);
    assert_eq!(combine(&sheet.rows[1..]).unwrap()[..], [0x2a]);
}

#[test]
fn a_text_is_refused_at_the_first_line_that_no_sheet_has_there() {
    let changed = |from: &str, to: &str| {
        assert!(EXAMPLE.contains(from));
        line_refused(&EXAMPLE.replacen(from, to, 1))
    };
    assert_eq!(line_refused(""), 0);
    assert_eq!(changed("seal", "Seal"), 0);
    assert_eq!(changed("seal\t2", "seal\t1"), 0);
    assert_eq!(changed("seal\t2", "seal\t02"), 0);
    assert_eq!(changed("seal\t2", "seal\t256"), 0);
    assert_eq!(changed("\t3\t", "\t0\t"), 0);
    assert_eq!(changed("\t3\t", "\t256\t"), 0);
    assert_eq!(changed("\t1\n", "\t0\n"), 0);
    assert_eq!(changed("\t1\n", &format!("\t{}\n", MAX_SECRET + 1)), 0);
    assert_eq!(changed("\n", "\r\n"), 0);
    // Such a sheet can be, with longer rows.
    assert_eq!(changed("\t1\n", &format!("\t{MAX_SECRET}\n")), 1);
    assert_eq!(changed("row", "Row"), 1);
    assert_eq!(changed("row\t2", "row 2"), 2);
    assert_eq!(changed("row\t2", "row\t0"), 2);
    assert_eq!(changed("row\t2", "row\t256"), 2);
    // A repeat is seen where the identifier stands again.
    assert_eq!(changed("row\t1", "row\t3"), 3);
    assert_eq!(changed("2f", "2F"), 1);
    assert_eq!(changed("2f", "2f0"), 1);
    assert_eq!(changed("2f", "2"), 1);
    // Too few rows, and more behind the last.
    assert_eq!(changed("\t3\t", "\t4\t"), 4);
    assert_eq!(changed("\t3\t", "\t2\t"), 3);
    assert_eq!(line_refused(&format!("{EXAMPLE}\n")), 4);
    assert_eq!(line_refused(EXAMPLE.trim_end()), 3);
}

#[test]
fn what_is_written_is_read_and_what_is_read_is_written() {
    for (threshold, ids, values) in [
        (2, vec![9], 1),
        (10, vec![255, 10, 1], 16),
        (MAX_SHARES, (1..=255).rev().collect(), 3),
        (128, (1..=255).collect(), MAX_SECRET),
    ] {
        let row = |&id: &u8| [vec![id], some_bytes(values, id.into())].concat();
        let rows: Vec<Vec<u8>> = ids.iter().map(row).collect();
        let text = sheet(threshold, &rows).unwrap();
        let read = read_sheet(&text).unwrap();
        assert_eq!(read.threshold, threshold);
        assert!(bytes_of(&read.rows) == rows, "other rows");
        let again = sheet(read.threshold, &read.rows).unwrap();
        assert!(again[..] == text[..], "another text");
    }
}

#[test]
fn reading_takes_the_room_of_the_rows_and_no_more() {
    let lent = |room| {
        let mut out = vec![LENT; room];
        let head = read_sheet_into(EXAMPLE.as_bytes(), &mut out);
        let head = head.map(|head| (head.threshold, head.rows, head.values));
        (head, out)
    };
    let rows = [1, 0x2f, 2, 0x20, 3, 0x25];
    assert_eq!(lent(6), (Ok((2, 3, 1)), rows.to_vec()));
    assert_eq!(lent(8), (Ok((2, 3, 1)), [&rows[..], &[LENT; 2]].concat()));
    assert_eq!(lent(5), (Err(Refusal::NoRoom), vec![LENT; 5]));
    assert!(rows_room(EXAMPLE.len()) >= 6);
    // What is no sheet is that, whatever the room.
    let no_sheet = read_sheet_into(&EXAMPLE.as_bytes()[1..], &mut []);
    assert_eq!(no_sheet, Err(Refusal::InvalidSheet { line: 0 }));
}

#[test]
fn reading_takes_the_room_of_the_head_and_no_more() {
    let lent = |head_room| {
        let mut head = vec![LENT; head_room];
        let mut out = [LENT; 6];
        let word = entry::read_sheet(EXAMPLE.as_bytes(), &mut head, &mut out);
        (vsss::decode(word), head, out)
    };
    let (answer, head, _) = lent(13);
    assert_eq!(answer, Ok(6));
    assert_eq!(head, [2, 0, 0, 0, 3, 0, 0, 0, 1, 0, 0, 0, LENT]);
    assert_eq!(lent(12).0, Ok(6));
    for short in [0, 11] {
        let refused = (Err(Refusal::NoRoom), vec![LENT; short], [LENT; 6]);
        assert_eq!(lent(short), refused);
    }
}

#[test]
fn the_last_line_that_can_be_refused_is_behind_the_most_rows() {
    let rows: Vec<[u8; 2]> = (1..=255).map(|id| [id, 0]).collect();
    let text = sheet_text(2, &rows);
    assert_eq!(line_refused(&format!("{text}x")), 256);
    assert_eq!(line_refused(text.trim_end()), 255);
}
