//! Numbers as a person reads them.

/// `1 byte`, `4,097 bytes`.
pub fn bytes(count: usize) -> String {
    counted(count, "byte")
}

/// `1 row`, `3 rows`.
pub fn counted(count: usize, what: &str) -> String {
    let ending = if count == 1 { "" } else { "s" };
    format!("{} {what}{ending}", grouped(count))
}

/// The digits in groups of three: `4,096`.
pub fn grouped(number: usize) -> String {
    match number {
        0..=999 => number.to_string(),
        _ => format!("{},{:03}", grouped(number / 1000), number % 1000),
    }
}

#[cfg(test)]
mod tests {
    use super::*;

    #[test]
    fn digits_stand_in_threes() {
        let texts = [0, 7, 100, 999, 1000, 4096, 65_536, 1_040_384, 2_000_000].map(grouped);
        let expected = [
            "0",
            "7",
            "100",
            "999",
            "1,000",
            "4,096",
            "65,536",
            "1,040,384",
            "2,000,000",
        ];
        assert_eq!(texts, expected);
    }

    #[test]
    fn one_byte_is_no_bytes() {
        assert_eq!(bytes(0), "0 bytes");
        assert_eq!(bytes(1), "1 byte");
        assert_eq!(bytes(4097), "4,097 bytes");
        assert_eq!(counted(1, "row"), "1 row");
    }
}
