//! Numbers as they are shown.

/// Numbers below this are written decimal, others in hexadecimal.
const DECIMAL_BELOW: u64 = 1_000_000;

pub(crate) fn number(number: u64) -> String {
    if number < DECIMAL_BELOW {
        number.to_string()
    } else {
        format!("{number:#X}")
    }
}

/// A word whose fields are read out of its digits.
pub(super) fn digits(word: u64) -> String {
    match word {
        0 => "0".to_string(),
        _ => format!("{word:#X}"),
    }
}

/// A value as it may be meant: with the top bit set also as the negative number it stands for.
pub(super) fn value(value: u64) -> String {
    if value >> 63 == 1 {
        format!("{} ({})", number(value), value as i64)
    } else {
        number(value)
    }
}

#[cfg(test)]
mod tests {
    use super::*;

    #[test]
    fn large_numbers_are_hexadecimal_and_negative_values_are_told() {
        assert_eq!(number(999_999), "999999");
        assert_eq!(number(1_000_000), "0xF4240");
        assert_eq!(value(600), "600");
        assert_eq!(value(u64::MAX - 99), "0xFFFFFFFFFFFFFF9C (-100)");
        assert_eq!((digits(0), digits(771)), ("0".into(), "0x303".into()));
    }
}
