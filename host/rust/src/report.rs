//! What passed and what failed.

use std::process::ExitCode;
use std::time::Instant;

/// Counts of checks.
#[derive(Default)]
pub struct Report {
    passed: u64,
    failed: u64,
}

impl Report {
    /// Runs a check and prints its outcome with the time it took.
    pub fn check(&mut self, name: &str, check: impl FnOnce() -> Result<String, String>) {
        let begun = Instant::now();
        let outcome = check();
        let seconds = begun.elapsed().as_secs_f64();
        match outcome {
            Ok(text) => {
                self.passed += 1;
                println!("ok      {name}: {text} ({seconds:.1} s)");
            }
            Err(text) => {
                self.failed += 1;
                println!("FAILED  {name}: {text}");
            }
        }
    }

    /// Counts a check that is one line of a table.
    pub fn count(&mut self, passed: bool) {
        match passed {
            true => self.passed += 1,
            false => self.failed += 1,
        }
    }

    /// The last line and the exit status.
    pub fn finish(self) -> ExitCode {
        println!("{} passed, {} failed", self.passed, self.failed);
        match self.failed {
            0 => ExitCode::SUCCESS,
            _ => ExitCode::FAILURE,
        }
    }
}
