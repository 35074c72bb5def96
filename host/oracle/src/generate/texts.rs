//! Texts to read as sheets: sheets of every shape in every room, small sheets damaged in every
//! single way, numbers at every bound and beyond, and random texts.

use super::LONG;
use super::boundaries::plain_rows;
use super::sheets::random_whole_sheet;
use crate::reference::{self, MAX_LIMIT, MAX_SECRET};
use crate::{Random, ReadCall};
use std::ops::Range;

/// Every boundary call. They do not depend on a seed.
pub fn read_boundary_calls() -> Vec<ReadCall> {
    let mut random = Random::from_seed(0);
    let mut texts = numbers();
    texts.extend(ends(&mut random));
    texts.extend(repeats(&mut random));
    let sheets = small_sheets(&mut random);
    texts.extend(sheets.iter().flat_map(|sheet| damaged(sheet)));
    let mut calls = cut_short(&sheets[0], 6);
    calls.extend(texts.into_iter().map(ReadCall::of_text));
    calls.extend(shapes(&mut random));
    calls
}

/// The plain writer's text for rows that make a sheet.
fn text_of(threshold: usize, rows: &[Vec<u8>]) -> Vec<u8> {
    let lengths = rows.iter().map(|row| (row.len() as u32).to_le_bytes());
    let lengths: Vec<u8> = lengths.flatten().collect();
    let text = reference::sheet_text(threshold, &rows.concat(), &lengths);
    text.expect("these rows make a sheet").into_bytes()
}

/// Sheets at every bound and where a number gains a digit, each in several rooms.
fn shapes(random: &mut Random) -> Vec<ReadCall> {
    let mut calls = Vec::new();
    let mut add = |threshold, count, values| {
        let text = text_of(threshold, &plain_rows(random, count, values));
        calls.extend(in_rooms(text, count * (values + 1)));
    };
    for threshold in [2, 9, 10, 99, 100, MAX_LIMIT] {
        for count in 1..=4 {
            for values in [1, 2, 15, 16, 17] {
                add(threshold, count, values);
            }
        }
    }
    for count in [9, 10, 99, 100, MAX_LIMIT - 1, MAX_LIMIT] {
        add(3, count, 3);
    }
    for values in [9, 10, 99, 100, 999, 1000, 9999, 10_000] {
        add(3, 2, values);
    }
    for values in [MAX_SECRET - 1, MAX_SECRET] {
        let text = text_of(3, &plain_rows(random, 1, values));
        calls.extend([values + 1, values].map(|room| ReadCall {
            room,
            ..ReadCall::of_text(text.clone())
        }));
    }
    // Many long rows take time: once is enough.
    let rows = plain_rows(random, MAX_LIMIT, LONG);
    calls.push(ReadCall {
        room: rows.concat().len(),
        ..ReadCall::of_text(text_of(128, &rows))
    });
    calls
}

/// The text of a sheet whose rows take `exact` bytes, with that room, with more and with less; and
/// so for its first line.
fn in_rooms(text: Vec<u8>, exact: usize) -> impl Iterator<Item = ReadCall> {
    let rooms = [exact, exact + 1, exact + 40, exact - 1, 0];
    let heads = [12, 13, 40, 11, 0];
    let both = rooms.into_iter().flat_map(move |room| {
        let with_room = move |head| (room, head);
        heads.into_iter().map(with_room)
    });
    both.map(move |(room, head)| ReadCall {
        room,
        head,
        text: text.clone(),
    })
}

/// Every beginning of a text in the rooms of its whole, whose rows take `exact` bytes: what is no
/// sheet is that, whatever the room.
fn cut_short(text: &[u8], exact: usize) -> Vec<ReadCall> {
    let beginnings = (0..=text.len()).map(|end| text[..end].to_vec());
    beginnings.flat_map(|text| in_rooms(text, exact)).collect()
}

/// Document 02's example, a row alone, and sheets in which each number has more digits.
fn small_sheets(random: &mut Random) -> Vec<Vec<u8>> {
    let g = [vec![1, 0x2f], vec![2, 0x20], vec![3, 0x25]];
    vec![
        text_of(2, &g),
        text_of(2, &g[..1]),
        text_of(255, &[vec![10, 0x9a, 0xbc], vec![255, 0x00, 0xff]]),
        text_of(10, &[[&[100], random.bytes(10).as_slice()].concat()]),
        text_of(99, &plain_rows(random, 10, 1)),
    ]
}

/// The text damaged in every single way: a character replaced by any, any put in, any part left
/// out, two lines exchanged, a line doubled. Some of these are sheets again.
pub fn damaged(text: &[u8]) -> Vec<Vec<u8>> {
    let characters = (0..text.len()).map(|place| place..place + 1);
    let gaps = (0..=text.len()).map(|place| place..place);
    let mut texts = Vec::new();
    for range in characters.chain(gaps) {
        texts.extend((0..=255).map(|byte| with(text, range.clone(), &[byte])));
    }
    for start in 0..=text.len() {
        texts.extend((start..=text.len()).map(|end| with(text, start..end, &[])));
    }
    texts.extend(with_lines_moved(text));
    texts
}

/// The text with other bytes in the place of some.
fn with(text: &[u8], range: Range<usize>, bytes: &[u8]) -> Vec<u8> {
    [&text[..range.start], bytes, &text[range.end..]].concat()
}

fn lines_of(text: &[u8]) -> Vec<&[u8]> {
    text.split_inclusive(|&c| c == b'\n').collect()
}

fn with_lines_moved(text: &[u8]) -> Vec<Vec<u8>> {
    let lines = lines_of(text);
    let mut texts = Vec::new();
    for one in 0..lines.len() {
        for other in 0..lines.len() {
            let mut swapped = lines.clone();
            swapped.swap(one, other);
            texts.push(swapped.concat());
            let mut doubled = lines.clone();
            doubled.insert(other, lines[one]);
            texts.push(doubled.concat());
        }
    }
    texts
}

/// Numbers around every bound, numbers that are in range modulo 2^16, 2^32 or 2^64, and what is no
/// decimal, in each place of a sheet that has a number.
fn numbers() -> Vec<Vec<u8>> {
    let mut words: Vec<String> = (0..=300u128)
        .chain([999, 1000, 9999, 10_000, 99_999, 100_000])
        .chain((MAX_SECRET as u128 - 1)..=(MAX_SECRET as u128 + 2))
        .chain([16, 32, 64].map(|bits| (1 << bits) + 1))
        .chain([16, 32, 64].map(|bits| (1 << bits) + 2))
        .map(|number| number.to_string())
        .collect();
    words.extend(
        [
            "", "02", "002", "+2", "-2", " 2", "2 ", "2.0", "0x2", "2e0", "two",
        ]
        .map(str::to_string),
    );
    words.push("0".repeat(30) + "2");
    words.push("2".repeat(100));
    let mut texts = Vec::new();
    for word in &words {
        for place in 0..4 {
            let mut fields = ["2", "1", "1", "2"];
            fields[place] = word;
            let [threshold, count, length, id] = fields;
            let text = format!("seal\t{threshold}\t{count}\t{length}\nrow\t{id}\t2f\n");
            texts.push(text.into_bytes());
        }
    }
    texts
}

/// Repeats at every place of a few rows, and of the last of the most rows.
fn repeats(random: &mut Random) -> Vec<Vec<u8>> {
    let mut texts = Vec::new();
    let mut add = |rows: &[Vec<u8>], one: usize, other: usize| {
        let (text, id) = (text_of(2, rows), rows[other][0]);
        let mut lines: Vec<Vec<u8>> = lines_of(&text).iter().map(|line| line.to_vec()).collect();
        lines[one + 1] = format!("row\t{id}\t{:02x}\n", rows[one][1]).into_bytes();
        texts.push(lines.concat());
    };
    for count in 1..=5 {
        let rows = plain_rows(random, count, 1);
        for one in 0..count {
            for other in 0..count {
                add(&rows, one, other);
            }
        }
    }
    let most = plain_rows(random, MAX_LIMIT, 1);
    for other in 0..MAX_LIMIT {
        add(&most, MAX_LIMIT - 1, other);
    }
    texts
}

/// Something behind the last row, and rows that are missing, with few rows and with the most.
fn ends(random: &mut Random) -> Vec<Vec<u8>> {
    let mut texts = vec![Vec::new()];
    for count in [1, 2, MAX_LIMIT] {
        let text = text_of(2, &plain_rows(random, count, 1));
        let lines = lines_of(&text);
        texts.extend((0..=count).map(|kept| lines[..kept].concat()));
        for behind in ["\n", "\r\n", "\0", "row", "row\t7\t00\n", "seal\t2\t1\t1\n"] {
            texts.push([&text, behind.as_bytes()].concat());
        }
        texts.push([text.clone(), text].concat());
    }
    texts
}

/// One random call: a sheet, in a third of them damaged in up to three ways; now and then any text.
pub fn random_read_call(random: &mut Random) -> ReadCall {
    let call = random_whole_sheet(random);
    let text = reference::sheet_text(call.threshold, &call.rows, &call.lengths);
    let mut text = text.expect("it is accepted").into_bytes();
    let exact = call.rows.len();
    if random.once_in(3) {
        for _ in 0..random.between(1, 3) {
            damage(&mut text, random);
        }
    }
    if random.once_in(50) {
        let count = random.between(0, 60);
        text = (0..count).map(|_| likely(random)).collect();
    }
    ReadCall {
        head: match random.between(0, 19) {
            0 => 0,
            1 => 11,
            2..=5 => random.between(13, 20),
            _ => 12,
        },
        room: match random.between(0, 19) {
            0 => exact - 1,
            1 => random.between(0, exact),
            2..=9 => exact + random.between(1, 40),
            _ => exact,
        },
        text,
    }
}

/// Mostly a character that sheets have.
fn likely(random: &mut Random) -> u8 {
    const LIKELY: &[u8] = b"sealrow\t\n\r 0123456789abcdefABCDEF";
    match random.between(0, 39) {
        0 => random.byte(),
        _ => LIKELY[random.between(0, LIKELY.len() - 1)],
    }
}

fn damage(text: &mut Vec<u8>, random: &mut Random) {
    let place = random.between(0, text.len());
    // Near the start stand all the numbers of a text that is mostly digits.
    let place = if random.once_in(2) { place % 24 } else { place }.min(text.len());
    let byte = likely(random);
    match random.between(1, 9) {
        1 | 2 if place < text.len() => text[place] = byte,
        3 => text.insert(place, byte),
        4 if place < text.len() => drop(text.remove(place)),
        5 => text.truncate(place),
        6 => text.push(byte),
        7 | 8 => move_a_line(text, random),
        _ => text.make_ascii_uppercase(),
    }
}

/// A line is exchanged with another, doubled or left out.
fn move_a_line(text: &mut Vec<u8>, random: &mut Random) {
    let mut lines = lines_of(text);
    if lines.is_empty() {
        return;
    }
    let [one, other] = [0; 2].map(|_| random.between(0, lines.len() - 1));
    match random.between(1, 3) {
        1 => lines.swap(one, other),
        2 => lines.insert(other, lines[one]),
        _ => drop(lines.remove(one)),
    }
    *text = lines.concat();
}
