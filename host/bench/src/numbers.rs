//! Numbers as they are printed.

/// With commas between thousands: 1,234.
pub fn grouped(number: u64) -> String {
    let mut rest = number;
    let mut thousands = Vec::new();
    while rest >= 1_000 {
        thousands.push(format!(",{:03}", rest % 1_000));
        rest /= 1_000;
    }
    thousands.push(rest.to_string());
    thousands.into_iter().rev().collect()
}

/// A list: 16, 4,096.
pub fn list(numbers: &[usize]) -> String {
    let each: Vec<String> = numbers.iter().map(|&n| grouped(n as u64)).collect();
    each.join(", ")
}

/// Seconds as microseconds, to three digits or more.
pub fn microseconds(seconds: f64) -> String {
    let micros = seconds * 1e6;
    match micros {
        ..0.9995 => format!("{micros:.3}"),
        ..9.995 => format!("{micros:.2}"),
        ..99.95 => format!("{micros:.1}"),
        _ => grouped(micros.round() as u64),
    }
}

pub fn ratio(ratio: f64) -> String {
    format!("{ratio:.3}")
}

/// Two decimals at most, and none that says nothing: 0.25, 0.1, 2.
pub fn short(number: f64) -> String {
    let digits = format!("{number:.2}");
    digits.trim_end_matches('0').trim_end_matches('.').into()
}

#[cfg(test)]
mod tests {
    use super::*;

    #[test]
    fn thousands_are_parted() {
        let parted = [0, 12, 123, 1_234, 123_456, 1_234_567].map(grouped);
        assert_eq!(parted, ["0", "12", "123", "1,234", "123,456", "1,234,567"]);
        assert_eq!(list(&[16, 4_096]), "16, 4,096");
    }

    #[test]
    fn a_short_number_has_no_useless_digit() {
        assert_eq!(
            [0.0, 0.25, 0.1, 2.0, 10.0].map(short),
            ["0", "0.25", "0.1", "2", "10"]
        );
    }

    #[test]
    fn times_have_three_digits_or_more() {
        let times = [0.25, 1.5, 9.996, 12.34, 99.96, 2_500_000.4];
        let shown = times.map(|micros| microseconds(micros / 1e6));
        assert_eq!(shown, ["0.250", "1.50", "10.0", "12.3", "100", "2,500,000"]);
    }
}
