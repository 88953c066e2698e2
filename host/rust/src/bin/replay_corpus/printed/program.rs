//! The program: where it is, and a log played by it.

use std::env;
use std::fs;
use std::io::{self, ErrorKind, Write};
use std::path::{Path, PathBuf};
use std::process::{self, Child, Command, Stdio};

/// Names the program.
const VARIABLE: &str = "EVTCHN_REPLAY";
/// The program, from this package's folder.
const DEFAULT: &str = "../../crates/evtchn_replay/out/evtchn_replay";

/// The program, and a file for logs that it opens by name.
pub struct Program {
    path: PathBuf,
    log: PathBuf,
}

impl Program {
    /// The program that the environment names, or the repository's.
    pub fn from_environment() -> Result<Self, String> {
        let default = || Path::new(env!("CARGO_MANIFEST_DIR")).join(DEFAULT);
        let path = env::var_os(VARIABLE).map_or_else(default, PathBuf::from);
        let log = env::temp_dir().join(format!("replay_corpus.{}", process::id()));
        match path.is_file() {
            true => Ok(Program { path, log }),
            false => Err(format!(
                "there is no program at {}: run `rt ci`, or name it in {VARIABLE}",
                path.display()
            )),
        }
    }

    /// What it prints of a log on its standard input.
    pub fn play(&self, text: &[u8]) -> Result<Vec<u8>, String> {
        let mut command = Command::new(&self.path);
        let child = command.stdin(Stdio::piped()).stdout(Stdio::piped()).spawn();
        printed(child, text)
    }

    /// What it prints of a log in a file.
    pub fn play_file(&self, text: &[u8]) -> Result<Vec<u8>, String> {
        let written = fs::write(&self.log, text);
        written.map_err(|error| format!("{}: {error}", self.log.display()))?;
        let mut command = Command::new(&self.path);
        command.arg(&self.log).stdin(Stdio::piped());
        printed(command.stdout(Stdio::piped()).spawn(), &[])
    }
}

impl Drop for Program {
    fn drop(&mut self) {
        // no log may have been written
        let _ = fs::remove_file(&self.log);
    }
}

/// Gives the program its standard input, which it need not read to the end, and waits for it.
fn printed(child: io::Result<Child>, input: &[u8]) -> Result<Vec<u8>, String> {
    let failed = |error| format!("the program does not run: {error}");
    let mut child = child.map_err(failed)?;
    let written = child.stdin.take().map(|mut pipe| pipe.write_all(input));
    match written {
        Some(Err(error)) if error.kind() != ErrorKind::BrokenPipe => return Err(failed(error)),
        _ => {}
    }
    let output = child.wait_with_output().map_err(failed)?;
    match output.status.success() {
        true => Ok(output.stdout),
        false => Err(format!("the program ends with {}", output.status)),
    }
}
