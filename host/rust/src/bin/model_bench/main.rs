//! The cost of one call of the model, whole, with real atomic accesses: `model_bench CALL REPEATS`.
//! Lines per second of a replay, by the library and by the model: `model_bench --replay FILE`, of a
//! log that `model_bench --write-log FILE LINES` writes.
//!
//! Seven calls of `host/c/bench/bench.c`, measured as it does: each repeat puts back the few words
//! that calls change, makes the call and compares its answer, its count of accesses and the words
//! left. Prints the nanoseconds of a call: those of the repeats less those of repeats without it.

mod calls;
mod host;
mod logs;

use calls::{Call, Words};
use host::Host;
use std::process::ExitCode;
use std::str::FromStr;
use std::time::Instant;

/// Parts that the repeats are made in; the least time of a part counts.
const ROUNDS: u32 = 20;

fn main() -> ExitCode {
    let arguments: Vec<String> = std::env::args().skip(1).collect();
    let arguments: Vec<&str> = arguments.iter().map(String::as_str).collect();
    match run(&arguments) {
        Ok(text) => {
            println!("{text}");
            ExitCode::SUCCESS
        }
        Err(text) => {
            eprintln!("model_bench: {text}");
            ExitCode::FAILURE
        }
    }
}

fn run(arguments: &[&str]) -> Result<String, String> {
    match *arguments {
        ["--write-log", file, lines] => logs::write(file, number(lines)?),
        ["--replay", file] => logs::play(file),
        [name, repeats] => measure_call(name, number(repeats)?),
        _ => Err("arguments: CALL REPEATS, --replay FILE or --write-log FILE LINES".to_string()),
    }
}

fn number<N: FromStr>(text: &str) -> Result<N, String> {
    let number = text.parse();
    number.map_err(|_| format!("{text} is not a number"))
}

fn measure_call(name: &str, repeats: u32) -> Result<String, String> {
    let call = Call::named(name).ok_or_else(|| format!("there is no call {name}"))?;
    if repeats < ROUNDS {
        return Err(format!("at least {ROUNDS} repeats"));
    }
    let mut host = Host::begin();
    call.prepare(&mut host)?;
    let before = Words::of(&host);
    if !call.is_right(call.run(&mut host)) || Words::of(&host) != call.left(before) {
        return Err(
            "the call's answer, its count or the words that it leaves are wrong".to_string(),
        );
    }
    let nanoseconds = measure(&mut host, call, before, repeats / ROUNDS)?;
    Ok(format!("{nanoseconds:.3}"))
}

/// The least time of the rounds with the call, less that without it. `tools/bench` counts the
/// instructions of `host::counted` from here on.
#[inline(never)]
fn measure(host: &mut Host, call: Call, before: Words, repeats: u32) -> Result<f64, String> {
    let (mut least, mut least_without) = (f64::INFINITY, f64::INFINITY);
    let after = Words::of(host);
    for _ in 0..ROUNDS {
        let begun = Instant::now();
        let mut right = true;
        for _ in 0..repeats {
            before.put(host);
            right &= call.is_right(call.run(host)) && Words::of(host) == after;
        }
        least = least.min(begun.elapsed().as_nanos() as f64);
        let begun = Instant::now();
        for _ in 0..repeats {
            before.put(host);
            right &= Words::of(host) == before;
        }
        least_without = least_without.min(begun.elapsed().as_nanos() as f64);
        if !right {
            return Err("a repeat of the call does not give or leave what the first did".into());
        }
    }
    Ok((least - least_without) / f64::from(repeats))
}
