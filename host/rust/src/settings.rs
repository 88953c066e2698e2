//! What the environment asks for.

use std::env;
use std::time::{SystemTime, UNIX_EPOCH};

/// Seed and length of a run.
pub struct Settings {
    /// The seed of the first history or log of each kind.
    pub seed: u64,
    /// How long they are run; none is the test run.
    pub minutes: Option<u64>,
}

impl Settings {
    /// `SEED` and `MINUTES`.
    pub fn from_environment() -> Result<Self, String> {
        let minutes = number("MINUTES")?;
        if minutes == Some(0) {
            return Err("MINUTES must be at least 1".to_string());
        }
        let usual = || if minutes.is_some() { clock() } else { 1 };
        let seed = number("SEED")?.unwrap_or_else(usual);
        Ok(Settings { seed, minutes })
    }
}

fn number(name: &str) -> Result<Option<u64>, String> {
    let Ok(text) = env::var(name) else {
        return Ok(None);
    };
    let number = text.parse();
    number
        .map(Some)
        .map_err(|_| format!("{name} must be a number, it is {text:?}"))
}

/// A seed that no earlier run had.
fn clock() -> u64 {
    let since = SystemTime::now().duration_since(UNIX_EPOCH);
    since.map_or(1, |time| time.as_nanos() as u64)
}
