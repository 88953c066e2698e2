//! The model's logs beside the stored output of crate `cases`, byte for byte.

use evtchn_fifo_host::cases::{print_all, stored};
use evtchn_fifo_host::report::Report;

/// Compares the whole texts.
pub fn run(report: &mut Report) {
    report.check("logs of crate cases", || compare(&print_all(), &stored()?));
}

fn compare(model: &str, stored: &str) -> Result<String, String> {
    if model == stored {
        return Ok(format!("{} bytes are the same", stored.len()));
    }
    let lines = |text| str::lines(text).collect::<Vec<_>>();
    let (model, stored) = (lines(model), lines(stored));
    let same = model.iter().zip(&stored).take_while(|(a, b)| a == b);
    let at = same.count();
    Err(format!(
        "line {} differs\n model  {:?}\n stored {:?}",
        at + 1,
        model.get(at),
        stored.get(at)
    ))
}
