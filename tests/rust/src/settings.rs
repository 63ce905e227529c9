//! The two settings of the environment.

use std::env;

/// The drawn numbers' seed.
pub fn seed() -> Result<u64, String> {
    setting("LIRVEDD_SEED", 1)
}

/// How many times as many drawn cases.
pub fn factor() -> Result<f64, String> {
    factor_or(1.0)
}

/// The same, where another factor is usual. With none above 0 nothing would be
/// drawn, and nothing could differ.
pub fn factor_or(usual: f64) -> Result<f64, String> {
    let factor = setting("LIRVEDD_FACTOR", usual)?;
    match factor > 0.0 {
        true => Ok(factor),
        false => Err("LIRVEDD_FACTOR: not above 0".to_string()),
    }
}

fn setting<T: std::str::FromStr>(name: &str, usual: T) -> Result<T, String> {
    match env::var(name) {
        Ok(text) => text.parse().map_err(|_| format!("{name}: not a number")),
        Err(_) => Ok(usual),
    }
}
