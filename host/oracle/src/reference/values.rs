//! Values of polynomials: at an identifier for split, at 0 for combine.

use super::field::{multiples, product, quotient};

/// A row's value for one byte of the secret: that byte, and each coefficient multiplied by the
/// identifier as often as its degree says.
pub fn row_value(secret: u8, coefficients: &[u8], id: u8) -> u8 {
    let mut power = 1;
    let mut sum = secret;
    for &coefficient in coefficients {
        power = product(power, id);
        sum ^= product(coefficient, power);
    }
    sum
}

/// For each column of values: the polynomial through the points whose degree is less than their
/// count, at 0. Identifiers are distinct.
///
/// Neville's scheme: where p goes through the points i to j - 1 and q through i + 1 to j,
/// (x_j p + x_i q) / (x_i + x_j) goes, at 0, through i to j.
pub fn values_at_zero(points: &[(u8, &[u8])]) -> Vec<u8> {
    let mut values: Vec<Vec<u8>> = points.iter().map(|(_, column)| column.to_vec()).collect();
    for distance in 1..points.len() {
        for i in 0..points.len() - distance {
            let (x_i, x_j) = (points[i].0, points[i + distance].0);
            let [left, right] = [x_j, x_i]
                .map(|x| multiples(quotient(x, x_i ^ x_j).expect("identifiers are distinct")));
            let (at, after) = values.split_at_mut(i + 1);
            for (p, &q) in at[i].iter_mut().zip(&after[0]) {
                *p = left[usize::from(*p)] ^ right[usize::from(q)];
            }
        }
    }
    values.swap_remove(0)
}

/// The factor of each row in a combine: the value at 0 of the polynomial that is 1 at its
/// identifier and 0 at the others. Identifiers are distinct.
pub fn lagrange_coefficients(ids: &[u8]) -> Vec<u8> {
    let columns: Vec<Vec<u8>> = (0..ids.len())
        .map(|row| (0..ids.len()).map(|i| u8::from(i == row)).collect())
        .collect();
    let points: Vec<(u8, &[u8])> = ids
        .iter()
        .zip(&columns)
        .map(|(&id, column)| (id, column.as_slice()))
        .collect();
    values_at_zero(&points)
}
