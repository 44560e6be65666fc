//! Numbers as they are written in a text.

/// A number of at most 64 bits, decimal or 0x.
pub fn number_of(text: &str) -> Option<u64> {
    let (digits, radix) = match text.strip_prefix("0x").or(text.strip_prefix("0X")) {
        Some(digits) => (digits, 16),
        None => (text, 10),
    };
    let plain = digits.chars().all(|digit| digit.is_digit(radix));
    plain.then(|| u64::from_str_radix(digits, radix).ok())?
}

/// A number of 64 bits that may be meant as negative: `-5` stands for the bits of 2^64 - 5.
pub fn signed_number_of(text: &str) -> Option<u64> {
    if text.starts_with('-') {
        text.parse().ok().map(|number: i64| number as u64)
    } else {
        number_of(text)
    }
}

#[cfg(test)]
mod tests {
    use super::*;

    #[test]
    fn a_number_is_decimal_or_hexadecimal() {
        assert_eq!(number_of("1000"), Some(1000));
        assert_eq!(number_of("0x3e8"), Some(1000));
        assert_eq!(number_of("0X3E8"), Some(1000));
        assert_eq!(number_of("18446744073709551615"), Some(u64::MAX));
    }

    #[test]
    fn odd_numbers_are_none() {
        for text in [
            "",
            "0x",
            "+1",
            "-1",
            "1_0",
            "1k",
            "18446744073709551616",
            "0xG",
        ] {
            assert_eq!(number_of(text), None, "{text}");
        }
    }

    #[test]
    fn a_negative_number_stands_for_its_64_bits() {
        assert_eq!(signed_number_of("-5"), Some(u64::MAX - 4));
        assert_eq!(signed_number_of("-0"), Some(0));
        assert_eq!(signed_number_of("-9223372036854775808"), Some(1 << 63));
        assert_eq!(signed_number_of("0xFF"), Some(255));
        for text in ["-", "--5", "-+5", "-0x5", "- 5", "-9223372036854775809"] {
            assert_eq!(signed_number_of(text), None, "{text}");
        }
    }
}
