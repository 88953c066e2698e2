//! The logs of a run: good ones with every damage, the sample with every byte changed, and those
//! at edges.

use super::campaign::Campaign;
use crate::edges::edges;
use crate::LENT;
use evtchn_fifo_host::corpus::cases::Damaged;
use evtchn_fifo_host::corpus::damage::DAMAGES;
use evtchn_fifo_host::corpus::sample::each_byte;
use evtchn_fifo_host::corpus::Case;
use evtchn_fifo_host::crash;
use evtchn_fifo_host::random::Random;

/// The good logs of so many seeds, each with every damage.
pub fn damaged(campaign: &mut Campaign, seed: u64, number: u64) -> Result<(), String> {
    for seed in (0..number).map(|at| seed.wrapping_add(at)) {
        crash::set_seed(seed);
        let mut random = Random::new(!seed);
        let mut damaged = Damaged::new(seed);
        campaign.note_lines(&damaged.recorder.lines);
        for (at, damage) in DAMAGES.iter().enumerate() {
            let played = campaign.play(&mut random, Some(at), &damaged.case(at));
            played.map_err(|text| format!("seed {seed}, damage: {}, {text}", damage.name))?;
        }
    }
    Ok(())
}

/// The sample with each byte of a line of each form changed to every other byte.
pub fn bytes(campaign: &mut Campaign, seed: u64) -> Result<(), String> {
    crash::set_seed(seed);
    let mut random = Random::new(!seed);
    for case in each_byte() {
        campaign.play(&mut random, None, &case)?;
    }
    Ok(())
}

/// Logs at edges.
pub fn at_edges(campaign: &mut Campaign, seed: u64) -> Result<(), String> {
    crash::set_seed(seed);
    let mut random = Random::new(!seed);
    for (name, text) in edges() {
        let played = campaign.play(&mut random, None, &Case { shape: LENT, text });
        played.map_err(|text| format!("{name}, {text}"))?;
    }
    Ok(())
}
