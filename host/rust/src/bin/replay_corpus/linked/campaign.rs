//! Logs played by the library's functions and by the model, and what they met.

use super::buffers::Buffers;
use super::cuts::{length, Cut, CUTS};
use super::rows::Rows;
use super::shown::{due_by_library, due_by_model, due_words, Shown};
use super::world;
use evtchn_fifo_host::boundary::replay::{Lent, Position};
use evtchn_fifo_host::corpus::coverage::Coverage;
use evtchn_fifo_host::corpus::reasons::reason;
use evtchn_fifo_host::corpus::Case;
use evtchn_fifo_host::guarded::{Edge, Guarded};
use evtchn_fifo_host::model::log::Line;
use evtchn_fifo_host::model::replay::Replay;
use evtchn_fifo_host::random::Random;

/// Bytes that a piece can have.
const PIECE: usize = 1 << 22;
/// One log in so many has an odd byte behind the ledger's entries.
const ODD: u64 = 4;
/// Most characters of a log that are shown.
const SHOWN: usize = 20_000;

/// What the library's replay of a log left.
pub struct Played<'a> {
    /// All that was lent.
    pub lent: Lent<'a>,
    /// Where it stands.
    pub position: Position,
    /// Whether a byte of the ledger that is no entry's stayed.
    odd_stays: bool,
}

/// The library's side: what is lent, and a piece of a log against a guard page.
pub struct Player {
    buffers: Buffers,
    piece: Guarded,
}

impl Default for Player {
    fn default() -> Self {
        Player {
            buffers: Buffers::default(),
            piece: Guarded::new(PIECE),
        }
    }
}

impl Player {
    /// Plays a log from junk on, in pieces.
    pub fn play(&mut self, random: &mut Random, case: &Case, cut: Cut) -> Played<'_> {
        let ledger_bytes = 2 * case.shape.entries + usize::from(random.once_in(ODD));
        let mut lent = self.buffers.lend(random, case.shape.words, ledger_bytes);
        let odd = last_odd(lent.ledger);
        let mut position = lent.start();
        let mut left = &case.text[..];
        while !left.is_empty() {
            let (piece, more) = left.split_at(length(random, cut, left.len()));
            self.piece.set(piece.len(), Edge::Last);
            self.piece.bytes_mut().copy_from_slice(piece);
            position = lent.feed(position, self.piece.bytes());
            left = more;
        }
        let odd_stays = last_odd(lent.ledger) == odd;
        Played {
            lent,
            position,
            odd_stays,
        }
    }
}

/// The byte that is no entry's.
fn last_odd(ledger: &[u8]) -> Option<u8> {
    ledger.chunks_exact(2).remainder().first().copied()
}

/// The logs played so far.
#[derive(Default)]
pub struct Campaign {
    player: Player,
    met: Coverage,
    rows: Rows,
    logs: u64,
}

impl Campaign {
    /// One log by both. Everything that the library's replay shows of it is compared; where it was
    /// not stopped, also what is left of all that was lent.
    pub fn play(
        &mut self,
        random: &mut Random,
        damage: Option<usize>,
        case: &Case,
    ) -> Result<(), String> {
        let mut model = Replay::start(case.shape.entries, case.shape.words);
        model.feed(&case.text);
        let cut = random.pick(&CUTS);
        let played = self.player.play(random, case, cut);
        let compared = compare(case, &model, &played);
        compared.map_err(|difference| told(case, &difference))?;
        let lent = played.lent;
        self.rows.note(lent.words.len(), lent.ledger.len(), cut);
        self.met.note(damage, model.report(), reason(case, &model));
        self.logs += 1;
        Ok(())
    }

    /// Counts the lines of a good log.
    pub fn note_lines(&mut self, lines: &[Line]) {
        self.met.note_lines(lines);
    }

    /// Number of logs played.
    pub fn logs(&self) -> u64 {
        self.logs
    }

    /// Everything that logs can meet, with how often it was.
    pub fn counts(&self) -> Vec<(String, u64)> {
        let mut counts = self.rows.counts();
        counts.extend(self.met.counts());
        counts
    }
}

fn compare(case: &Case, model: &Replay, played: &Played<'_>) -> Result<(), String> {
    let (lent, position) = (&played.lent, played.position);
    let shown = Shown::of_library(lent, position);
    shown.expect(&Shown::of_model(case, model.report()))?;
    if !played.odd_stays {
        return Err("the ledger's odd byte differs".to_string());
    }
    if position.stop != 0 {
        return Ok(());
    }
    let library = due_by_library(lent, position);
    let wanted = due_by_model(model.due(), false);
    if library != wanted {
        let [library, model] = [library, wanted].map(|due| due_words(&due));
        return Err(format!("due: library {library}; model {model}"));
    }
    world::expect(lent, model.world())
}

/// A difference, and the log.
fn told(case: &Case, difference: &str) -> String {
    let log = case.text.escape_ascii().to_string();
    let log: String = log.replace("\\n", "\\n\n").chars().take(SHOWN).collect();
    format!("{:?}\n{difference}\nlog:\n{log}", case.shape)
}
