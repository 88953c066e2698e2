//! The guard pages are there: a child process that reads one byte outside dies of it.

use evtchn_fifo_host::crash;
use evtchn_fifo_host::guarded::{Edge, Guarded};
use evtchn_fifo_host::report::Report;
use std::os::unix::process::ExitStatusExt;
use std::process::{Command, ExitCode, Output};

const ARGUMENT: &str = "--read-outside";
/// The seed that the child process must print.
const SEED: u64 = 1_234_567_890_123;
/// SIGSEGV.
const SEGMENTATION: i32 = 11;

/// Whether this process is the child.
pub fn is_child() -> bool {
    std::env::args().nth(1).as_deref() == Some(ARGUMENT)
}

/// Reads outside at the edge that the second argument names; not expected to return.
pub fn child() -> ExitCode {
    let edge = match std::env::args().nth(2).as_deref() {
        Some("first") => Edge::First,
        _ => Edge::Last,
    };
    crash::install();
    crash::set_seed(SEED);
    let mut bytes = Guarded::new(100);
    bytes.set(100, edge);
    bytes.bytes_mut().fill(1);
    let read = bytes.read_outside(edge);
    println!("read {read} outside");
    ExitCode::SUCCESS
}

/// Both edges.
pub fn run(report: &mut Report) {
    for edge in ["first", "last"] {
        let name = format!("guard page at the {edge} byte");
        report.check(&name, || dies(edge));
    }
}

fn dies(edge: &str) -> Result<String, String> {
    let output = start(edge).map_err(|error| format!("no child process: {error}"))?;
    let said = String::from_utf8_lossy(&output.stderr);
    let seed = format!("seed {SEED}\n");
    match output.status.signal() {
        Some(SEGMENTATION) if said.ends_with(&seed) => {
            Ok("a read outside prints the seed and ends the process".to_string())
        }
        _ => Err(format!(
            "the child process gives {} and says {said:?}",
            output.status
        )),
    }
}

fn start(edge: &str) -> std::io::Result<Output> {
    let program = std::env::current_exe()?;
    Command::new(program).args([ARGUMENT, edge]).output()
}
