//! A log with what is lent to its replay; every damage of a good log.

use super::damage::DAMAGES;
use super::good;
use super::log::Log;
use super::recorder::{Recorder, Shape};
use crate::random::Random;

/// A log to be played, with what is lent.
#[derive(Clone, Debug)]
pub struct Case {
    /// What is lent.
    pub shape: Shape,
    /// The log.
    pub text: Vec<u8>,
}

impl Case {
    /// Line `number`, counted from 1, with its newline; empty where the log has none.
    pub fn line(&self, number: u64) -> &[u8] {
        let mut lines = self.text.split_inclusive(|byte| *byte == b'\n');
        let at = usize::try_from(number).unwrap_or(0).saturating_sub(1);
        lines.nth(at).unwrap_or(&[])
    }
}

/// A good log and the generator of its damages.
pub struct Damaged {
    /// The good log.
    pub recorder: Recorder,
    shape: Shape,
    log: Log,
    random: Random,
}

impl Damaged {
    /// The good log of a seed.
    pub fn new(seed: u64) -> Self {
        let mut random = Random::new(seed);
        let (shape, recorder) = good::record(&mut random);
        Damaged::of(random, shape, recorder)
    }

    /// A good log, played with so much lent.
    pub fn of(random: Random, shape: Shape, mut recorder: Recorder) -> Self {
        let log = std::mem::take(&mut recorder.log);
        Damaged {
            recorder,
            shape,
            log,
            random,
        }
    }

    /// The log with damage `at` of `DAMAGES`.
    pub fn case(&mut self, at: usize) -> Case {
        DAMAGES[at].case(&mut self.random, self.shape, &self.log)
    }
}
