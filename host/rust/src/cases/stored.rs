//! The stored output of crate `cases`.

use std::env;
use std::fs;
use std::path::{Path, PathBuf};

/// Names the stored output.
const VARIABLE: &str = "EVTCHN_FIFO_CASES";
/// The stored output, from this package's folder.
const DEFAULT: &str = "../../crates/cases/stdout";

/// The stored output, or why there is none.
pub fn stored() -> Result<String, String> {
    let default = || Path::new(env!("CARGO_MANIFEST_DIR")).join(DEFAULT);
    let path = env::var_os(VARIABLE).map_or_else(default, PathBuf::from);
    fs::read_to_string(&path).map_err(|error| {
        format!(
            "{}: {error}; {VARIABLE} can name the stored output",
            path.display()
        )
    })
}

/// Title and log of each run of an output; the line with its counts is left out.
pub fn split(output: &str) -> Vec<(&str, String)> {
    let mut logs = Vec::new();
    let mut lines = output.split_inclusive('\n');
    while let Some(title) = lines.next() {
        let log = lines
            .by_ref()
            .take_while(|line| !line.starts_with("counts"));
        logs.push((title.trim_end(), log.collect()));
    }
    logs
}
