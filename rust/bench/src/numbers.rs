//! Numbers formatted for readers.

/// The number with commas between thousands, as in 65,536.
pub fn grouped(number: usize) -> String {
    match number {
        0..=999 => number.to_string(),
        _ => format!("{},{:03}", grouped(number / 1000), number % 1000),
    }
}

#[cfg(test)]
mod tests {
    use super::grouped;

    #[test]
    fn thousands_stand_apart() {
        let numbers = [0, 999, 1000, 65_536, 1_000_007];
        let texts = ["0", "999", "1,000", "65,536", "1,000,007"];
        assert_eq!(numbers.map(grouped), texts);
    }
}
