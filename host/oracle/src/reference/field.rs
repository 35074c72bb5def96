//! The bytes as polynomials over two elements, modulo x^8 + x^4 + x^3 + x + 1 (FIPS 197).

use std::sync::LazyLock;

const MODULUS: u16 = 0x11b;

/// The ordinary product with carries dropped, then the remainder by long division.
fn product_by_definition(a: u8, b: u8) -> u8 {
    let mut product: u16 = (0..8)
        .filter(|bit| b >> bit & 1 == 1)
        .fold(0, |sum, bit| sum ^ (u16::from(a) << bit));
    for degree in (8..15).rev() {
        if product >> degree & 1 == 1 {
            product ^= MODULUS << (degree - 8);
        }
    }
    product as u8
}

/// Every product, worked out once: long runs ask for billions of them.
static PRODUCTS: LazyLock<Vec<[u8; 256]>> = LazyLock::new(|| {
    (0..=255)
        .map(|a| std::array::from_fn(|b| product_by_definition(a, b as u8)))
        .collect()
});

static INVERSES: LazyLock<[Option<u8>; 256]> = LazyLock::new(|| {
    std::array::from_fn(|a| (0..=255).find(|&b| product_by_definition(a as u8, b) == 1))
});

/// The multiples of one element.
pub(super) fn multiples(a: u8) -> &'static [u8; 256] {
    &PRODUCTS[usize::from(a)]
}

pub fn product(a: u8, b: u8) -> u8 {
    multiples(a)[usize::from(b)]
}

/// The byte whose product with `a` is 1; none for 0.
pub fn inverse(a: u8) -> Option<u8> {
    INVERSES[usize::from(a)]
}

/// `a` divided by `b`; none for division by 0.
pub fn quotient(a: u8, b: u8) -> Option<u8> {
    inverse(b).map(|inverse| product(a, inverse))
}

pub fn power(a: u8, exponent: usize) -> u8 {
    (0..exponent).fold(1, |power, _| product(power, a))
}
