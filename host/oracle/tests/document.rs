//! Document 01's values and bounds, by the plain reading.

use oracle::Outcome::{self, Done};
use oracle::reference::{
    MAX_LIMIT, MAX_SECRET, combine, combine_length_bytes, field_bounded_add, inverse, product,
    quotient, split, uniform_nonzero_u8,
};

fn split_bytes(
    threshold: usize,
    limit: usize,
    secret: &[u8],
    ids: &[u8],
    coefficients: &[u8],
) -> (Outcome, Vec<u8>) {
    let mut out = vec![0; limit.min(255) * (secret.len() + 1)];
    let outcome = split(threshold, limit, secret, ids, coefficients, &mut out);
    (outcome, out)
}

fn combine_bytes(rows: &[u8], lengths: &[u32]) -> (Outcome, Vec<u8>) {
    let mut out = vec![0; 1];
    let outcome = combine(rows, lengths, &mut out);
    (outcome, out)
}

#[test]
fn field_values() {
    assert_eq!(product(0x57, 0x83), 0xc1);
    assert_eq!(product(0x57, 0x13), 0xfe);
    assert_eq!(product(0x53, 0xca), 0x01);
    assert_eq!(inverse(0x02), Some(0x8d));
    assert_eq!(inverse(0x03), Some(0xf6));
    assert_eq!(product(0x80, 0x02), 0x1b);
    assert_eq!(inverse(0), None);
    assert_eq!(quotient(1, 0), None);
}

#[test]
fn sharing_values() {
    let g = split_bytes(2, 3, &[0x2a], &[1, 2, 3], &[5]);
    assert_eq!(g, (Done(6), vec![1, 0x2f, 2, 0x20, 3, 0x25]));
    assert_eq!(
        combine_bytes(&[1, 0x2f, 2, 0x20], &[2, 2]),
        (Done(1), vec![0x2a])
    );
    let i = split_bytes(3, 3, &[0x2a], &[1, 2, 3], &[5, 7]);
    assert_eq!(i, (Done(6), vec![1, 0x28, 2, 0x3c, 3, 0x3e]));
    assert_eq!(combine_bytes(&i.1, &[2; 3]), (Done(1), vec![0x2a]));
    assert_eq!(combine_bytes(&i.1[..4], &[2; 2]), (Done(1), vec![0x24]));
    let k = split_bytes(2, 2, &[0], &[1, 2], &[0x2f]);
    assert_eq!(k.1[..2], [1, 0x2f]);
    let repeated = split_bytes(2, 2, &[0x2a], &[7, 7], &[5]);
    assert_eq!(repeated, (Done(4), vec![7, 0x31, 7, 0x31]));
    assert_eq!(
        combine_bytes(&repeated.1, &[2; 2]).0,
        Outcome::refused_at(7, 0, 1)
    );
}

#[test]
fn bounded_add_and_sampler_values() {
    assert_eq!(field_bounded_add(250, 5, 256), 255);
    assert_eq!(field_bounded_add(250, 6, 256), 0);
    assert_eq!(field_bounded_add(1, 1, 257), 0);
    assert_eq!(uniform_nonzero_u8(254, 255), 255);
    assert_eq!(uniform_nonzero_u8(255, 255), 1);
    assert_eq!(uniform_nonzero_u8(u32::MAX, 255), 1);
    assert_eq!(uniform_nonzero_u8(5, 0), 0);
    assert_eq!(uniform_nonzero_u8(5, 256), 0);
}

#[test]
fn split_bounds() {
    let ids: Vec<u8> = (1..=255).collect();
    let refused = |number| Outcome::refused(number);
    assert_eq!(split_bytes(2, 255, &[1], &ids, &[9]).0, Done(510));
    assert_eq!(split_bytes(2, 256, &[], &ids, &[]).0, refused(1));
    assert_eq!(split_bytes(2, 2, &[], &ids, &[]).0, refused(2));
    assert_eq!(split_bytes(0, 0, &[1], &ids, &[]).0, refused(4));
    assert_eq!(split_bytes(1, 0, &[1], &ids, &[]).0, refused(3));
    assert_eq!(split_bytes(2, 3, &[1], &[1, 2], &[9]).0, refused(5));
    assert_eq!(
        split_bytes(2, 3, &[1], &[1, 0], &[9]).0,
        Outcome::refused_at(6, 1, 0)
    );
    let longest = [3; MAX_SECRET];
    assert_eq!(
        split_bytes(2, 2, &longest, &ids, &longest).0,
        Done(2 * (MAX_SECRET + 1))
    );
    let longer = [3; MAX_SECRET + 1];
    assert_eq!(split_bytes(2, 2, &longer, &ids, &longer).0, refused(10));
    assert_eq!(split_bytes(2, 2, &[1], &ids, &[]).0, refused(11));
    let mut out = [7; 3];
    assert_eq!(split(2, 2, &[1], &ids, &[9], &mut out), refused(12));
    assert_eq!(out, [7; 3]);
}

#[test]
fn combine_bounds() {
    let refused = |number| Outcome::refused(number);
    assert_eq!(combine_bytes(&[], &[]).0, refused(4));
    assert_eq!(combine_bytes(&[1], &[]).0, refused(13));
    assert_eq!(combine_bytes(&[1, 2], &[1, 1]).0, refused(8));
    assert_eq!(combine_bytes(&[1, 2, 3, 4, 5], &[2, 3]).0, refused(8));
    // A zero wins over the repeat before it.
    assert_eq!(
        combine_bytes(&[1, 9, 1, 9, 0, 9], &[2; 3]).0,
        Outcome::refused_at(6, 2, 0)
    );
    // The first row whose identifier is on the table already, though 5 lies there before 7.
    assert_eq!(
        combine_bytes(&[5, 9, 7, 9, 7, 9, 5, 9], &[2; 4]).0,
        Outcome::refused_at(7, 1, 2)
    );
    assert_eq!(
        combine(&[1, 9, 8, 2, 9, 8], &[3; 2], &mut [0; 1]),
        refused(12)
    );
    let rows = |values: usize| [1, 2].map(|id| vec![id; values + 1]).concat();
    let longest = combine(
        &rows(MAX_SECRET),
        &[MAX_SECRET as u32 + 1; 2],
        &mut [0; MAX_SECRET],
    );
    assert_eq!(longest, Done(MAX_SECRET));
    let longer = combine_bytes(&rows(MAX_SECRET + 1), &[MAX_SECRET as u32 + 2; 2]);
    assert_eq!(longer.0, refused(10));
}

#[test]
fn lengths_that_cross_as_bytes() {
    let across = |lengths: &[u8]| combine_length_bytes(&[1, 0x2f, 2, 0x20], lengths, &mut [0; 1]);
    assert_eq!(across(&[2, 0, 0, 0, 2, 0, 0, 0]), Done(1));
    assert_eq!(across(&[2, 0, 0, 0, 2, 0, 0]), Outcome::refused(13));
    assert_eq!(across(&[0; 4 * 65_536]), Outcome::refused(13));
}

#[test]
fn words_of_the_c_interface() {
    for outcome in [
        Done(0),
        Done(MAX_LIMIT * (MAX_SECRET + 1)),
        Outcome::refused(13),
        Outcome::refused_at(6, 65_534, 0),
        Outcome::refused_at(7, 65_533, 65_534),
    ] {
        assert_eq!(Outcome::from_word(outcome.to_word()), outcome);
    }
    assert_eq!(
        Outcome::refused_at(7, 1, 2).to_word(),
        (7 << 40) + (1 << 16) + 2
    );
}
