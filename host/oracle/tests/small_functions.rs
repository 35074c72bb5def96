//! The original's small functions beside the plain reading, over their whole domains where these
//! can be walked.
#![cfg(have_original)]

use oracle::{Random, original, reference};

fn bytes() -> std::ops::RangeInclusive<u8> {
    0..=255
}

fn pairs() -> impl Iterator<Item = (u8, u8)> {
    bytes().flat_map(|a| bytes().map(move |b| (a, b)))
}

#[test]
fn product_of_every_pair() {
    for (a, b) in pairs() {
        assert_eq!(
            original::gf256_mul(a, b),
            reference::product(a, b),
            "{a} {b}"
        );
    }
}

#[test]
fn sum_and_negative_of_every_pair() {
    for (a, b) in pairs() {
        assert_eq!(original::add(a, b), a ^ b);
        assert_eq!(original::sub(a, b), a ^ b);
        assert_eq!(original::neg(a), a);
    }
}

#[test]
fn inverse_of_every_byte() {
    for a in bytes() {
        let inverse = reference::inverse(a);
        assert_eq!(original::invert(a), inverse, "{a}");
        assert_eq!(original::identifier_invert(a), inverse.ok_or(9), "{a}");
        assert_eq!(inverse.unwrap_or(0), reference::power(a, 254), "{a}");
    }
}

#[test]
fn quotient_of_every_pair() {
    for (a, b) in pairs().filter(|(_, b)| *b != 0) {
        assert_eq!(
            Some(original::div(a, b)),
            reference::quotient(a, b),
            "{a} {b}"
        );
    }
}

/// Outside the compared domain: ours refuses by 9.
#[test]
#[should_panic(expected = "no division by zero")]
fn division_by_zero_panics() {
    original::div(1, 0);
}

#[test]
fn identifiers() {
    assert_eq!(original::IDENTIFIER_ZERO, 0);
    assert_eq!(original::IDENTIFIER_ONE, 1);
    for (a, b) in pairs() {
        let sum = u16::from(a) + u16::from(b);
        let expected = u8::try_from(sum).unwrap_or(0);
        assert_eq!(original::identifier_inc(a, b), expected, "{a} {b}");
        assert_eq!(original::identifier_from_slice(&[a, b]), Err(9));
    }
    assert_eq!(original::identifier_from_slice(&[]), Err(9));
    for a in bytes() {
        assert_eq!(original::identifier_from_slice(&[a]), Ok(a));
    }
}

/// Both zero tests of a value, against whether it is zero.
macro_rules! check_zero_tests {
    ($value:expr, $is_zero:expr) => {
        let is_zero = u8::from($is_zero);
        assert_eq!(original::ct_is_zero($value), is_zero, "{:?}", $value);
        assert_eq!(
            original::ct_is_not_zero($value),
            1 - is_zero,
            "{:?}",
            $value
        );
    };
}

#[test]
fn zero_tests_of_every_number() {
    for value in u8::MIN..=u8::MAX {
        check_zero_tests!(&value, value == 0);
    }
    for value in i8::MIN..=i8::MAX {
        check_zero_tests!(&value, value == 0);
    }
    for value in u16::MIN..=u16::MAX {
        check_zero_tests!(&value, value == 0);
    }
    for value in i16::MIN..=i16::MAX {
        check_zero_tests!(&value, value == 0);
    }
}

fn check_slice(slice: &[u8]) {
    let is_zero = slice.iter().all(|&byte| byte == 0);
    check_zero_tests!(slice, is_zero);
    check_zero_tests!(&slice, is_zero);
}

#[test]
fn zero_tests_of_slices() {
    check_slice(&[]);
    for (a, b) in pairs() {
        check_slice(&[a]);
        check_slice(&[a, b]);
    }
    // One byte that is not zero, at every place of longer slices.
    for length in 0..=40 {
        check_slice(&vec![0; length]);
        for place in 0..length {
            for value in bytes() {
                let mut slice = vec![0; length];
                slice[place] = value;
                check_slice(&slice);
            }
        }
    }
}

#[test]
fn bounded_add_at_every_size() {
    for size in 0..=256 {
        for (a, b) in pairs() {
            assert_eq!(
                original::field_bounded_add(a, b, size),
                reference::field_bounded_add(a, b, size),
                "{a} {b} {size}"
            );
        }
    }
}

#[test]
fn sampler_at_every_modulus() {
    let mut random = Random::from_seed(2);
    let words: Vec<u32> = (0..1024)
        .chain(u32::MAX - 1024..=u32::MAX)
        .chain((0..4096).map(|_| random.word() as u32))
        .collect();
    for modulus in 1..=255 {
        for &word in &words {
            let sample = original::uniform_nonzero_u8(word, modulus);
            assert_eq!(sample, reference::uniform_nonzero_u8(word, modulus));
            assert!((1..=modulus).contains(&u32::from(sample)));
        }
    }
}

#[test]
fn polynomial_values() {
    let mut random = Random::from_seed(3);
    for _ in 0..20_000 {
        let [secret, id] = [0; 2].map(|_| random.byte());
        let count = random.between(1, 20);
        let coefficients = random.bytes(count);
        assert_eq!(
            original::evaluate(secret, &coefficients, id),
            reference::row_value(secret, &coefficients, id)
        );
    }
}

fn rows_of(ids: &[u8]) -> Vec<Vec<u8>> {
    ids.iter().map(|&id| vec![id, 1]).collect()
}

#[test]
fn lagrange_coefficients_of_random_sets() {
    let mut random = Random::from_seed(4);
    let sizes = (0..3000).map(|round| if round < 256 { round } else { 2 + round % 30 });
    for size in sizes {
        let ids = random.distinct_ids(size);
        assert_eq!(
            original::lagrange_coefficients(&rows_of(&ids)),
            Ok(if ids.is_empty() {
                Vec::new()
            } else {
                reference::lagrange_coefficients(&ids)
            }),
            "{ids:?}"
        );
    }
}

#[test]
fn lagrange_coefficients_refuse_zeros_before_repeats() {
    let mut random = Random::from_seed(5);
    for _ in 0..3000 {
        let size = random.between(2, 12);
        let mut ids = random.distinct_ids(size);
        let [some, other] = [0; 2].map(|_| random.between(0, size - 1));
        ids[some] = if random.once_in(2) { 0 } else { ids[other] };
        let repeats = (0..size).any(|i| ids[..i].contains(&ids[i]));
        let expected = if ids.contains(&0) {
            Err(6)
        } else if repeats {
            Err(7)
        } else {
            Ok(reference::lagrange_coefficients(&ids))
        };
        assert_eq!(original::lagrange_coefficients(&rows_of(&ids)), expected);
    }
}
