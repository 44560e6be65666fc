//! Seeds from text and from the clock.

use std::env;
use std::time::{SystemTime, UNIX_EPOCH};

/// A seed in decimal or 0x.
pub fn parse_seed(text: &str) -> Result<u64, String> {
    scribe::number_of(text).ok_or_else(|| format!("`{text}` is no seed, decimal or 0x"))
}

/// The seed in the environment variable SEED, else one from the clock.
pub fn fresh_seed() -> Result<u64, String> {
    match env::var("SEED") {
        Ok(text) => parse_seed(&text),
        Err(_) => SystemTime::now()
            .duration_since(UNIX_EPOCH)
            .map(|since| since.as_nanos() as u64)
            .map_err(|error| format!("the clock gives no seed: {error}")),
    }
}

#[cfg(test)]
mod tests {
    use super::*;

    #[test]
    fn seeds_are_decimal_or_hexadecimal() {
        assert_eq!(parse_seed("0x1F"), Ok(31));
        assert_eq!(parse_seed("18446744073709551615"), Ok(u64::MAX));
        assert!(parse_seed("soon").is_err());
    }
}
