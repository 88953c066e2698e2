//! The table of what histories met: a row for each thing that must be met often enough, a column for
//! each kind of history, and the total.

use evtchn_fifo_host::differential::coverage::WANTED;
use evtchn_fifo_host::report::Report;

/// Prints the rows and counts each as passed or failed. `parts` and `total` have the same rows.
pub fn judge<const KINDS: usize>(
    kinds: [&str; KINDS],
    parts: [Vec<(String, u64)>; KINDS],
    total: Vec<(String, u64)>,
    report: &mut Report,
) {
    print_row("met", kinds.map(String::from), "total", "");
    for (at, (name, times)) in total.into_iter().enumerate() {
        let passed = times >= WANTED;
        report.count(passed);
        let mark = if passed { "" } else { "TOO FEW" };
        let cells = parts.each_ref().map(|part| part[at].1.to_string());
        print_row(&name, cells, &times.to_string(), mark);
    }
}

fn print_row<const KINDS: usize>(name: &str, cells: [String; KINDS], total: &str, mark: &str) {
    let cells = cells.map(|cell| format!("{cell:>9}")).join(" ");
    let line = format!("{name:<54} {cells} {total:>9} {mark}");
    println!("{}", line.trim_end());
}
