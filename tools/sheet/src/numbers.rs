//! Numbers in sentences: thousands are set apart by commas. What is written in a sheet's text has none.

/// A whole number: `1,723`.
pub fn grouped(number: u64) -> String {
    grouped_text(&number.to_string())
}

/// A decimal number's text; one with an exponent, or another name of a double, stays as it is.
pub fn grouped_text(text: &str) -> String {
    let (sign, size) = match text.strip_prefix('-') {
        Some(size) => ("-", size),
        None => ("", text),
    };
    let digits = size.bytes().take_while(u8::is_ascii_digit).count();
    let (whole, after) = size.split_at(digits);
    if !(after.is_empty() || after.starts_with('.')) || after.contains('e') {
        return text.into();
    }
    let mut groups = String::new();
    for (k, digit) in whole.chars().enumerate() {
        if k > 0 && (digits - k).is_multiple_of(3) {
            groups.push(',');
        }
        groups.push(digit);
    }
    format!("{sign}{groups}{after}")
}

#[cfg(test)]
mod tests {
    use super::*;

    #[test]
    fn thousands_are_set_apart() {
        for (plain, said) in [
            ("0", "0"),
            ("999", "999"),
            ("1000", "1,000"),
            ("-1000000", "-1,000,000"),
            ("-100", "-100"),
            ("1234.56789", "1,234.56789"),
            ("0.0005", "0.0005"),
            ("1e300", "1e300"),
            ("1234.5e-7", "1234.5e-7"),
            ("inf", "inf"),
            ("-inf", "-inf"),
            ("0x7ff8000000000000", "0x7ff8000000000000"),
        ] {
            assert_eq!(grouped_text(plain), said);
        }
        assert_eq!(grouped(u64::MAX), "18,446,744,073,709,551,615");
    }
}
