//! The stored logs of crate `cases` with call lines, by the functions, the model and the program:
//! all agree, but for those of scripts that do what no log can say.

use crate::linked::Campaign;
use crate::printed::{text, Program};
use crate::LENT;
use evtchn_fifo_host::cases::{logs, split, Logged};
use evtchn_fifo_host::corpus::{Case, Shape};
use evtchn_fifo_host::crash;
use evtchn_fifo_host::model::replay::replay;
use evtchn_fifo_host::random::Random;
use evtchn_fifo_host::report::Report;

const UNSEEN: &str = "hands back a word that no access saw";
const BY_HAND: &str = "puts a call under way by hand";
const LEDGER: &str = "lends another ledger for a reply";
const NOT_TOLD: &str = "expands and does not tell at once";
const FRAMES: &str = "has 8 frames, not 1,024, and names frame 8";
const NO_CALL: &str = "replies with no call under way";

/// Logs on which no replay agrees: the title, the line that differs, and what the script does.
const OTHERS: [(&str, u64, &str); 32] = [
    ("C12", 22, UNSEEN),
    ("Reserved bits and a changed LINK", 21, UNSEEN),
    ("R6 sees the bit set", 21, UNSEEN),
    ("R2 sees LINKED", 11, UNSEEN),
    ("Saturated count of a raise", 6, BY_HAND),
    ("Taken on the second try", 22, UNSEEN),
    ("Taken on the third try", 22, UNSEEN),
    ("Taken on the fourth try", 22, UNSEEN),
    ("Taken on the fifth try", 22, UNSEEN),
    ("The or sees LINKED lost", 22, UNSEEN),
    ("Second cas loses LINKED", 22, UNSEEN),
    ("Third cas loses LINKED", 22, UNSEEN),
    ("Fourth cas loses LINKED", 22, UNSEEN),
    ("Fifth cas loses LINKED", 22, UNSEEN),
    ("BUSY stands before the first cas", 21, UNSEEN),
    ("BUSY stands before the or", 22, UNSEEN),
    ("BUSY and LINK change between two cas", 22, UNSEEN),
    ("The and sees LINKED lost", 22, UNSEEN),
    ("The and sees LINKED again", 22, UNSEEN),
    ("HEAD is 0", 17, UNSEEN),
    ("HEAD is 131077", 17, UNSEEN),
    ("H is outside", 38, UNSEEN),
    ("Tell before G1 extends her words", 12, NOT_TOLD),
    ("HEAD is beyond her words", 20, NOT_TOLD),
    ("Saturated count of a service", 15, BY_HAND),
    ("Calls during a clear mask", 44, NO_CALL),
    ("14 at the replies of bind, R1, R2, R5, R6", 7, LEDGER),
    ("14 at the replies of R3, R4, close, U1", 21, LEDGER),
    ("14 at the replies of the or and the and", 29, LEDGER),
    ("Calls during a raise", 47, NO_CALL),
    ("Refusals of the calls on ports", 35, FRAMES),
    ("Control block not given", 20, FRAMES),
];

/// Every log, and how many agree.
pub fn run(program: &Program, stored: &str, seed: u64, report: &mut Report) {
    println!("stored by crate cases");
    crash::set_seed(seed);
    let (logs, stored) = (logs(), split(stored));
    let mut player = Player {
        program,
        campaign: Campaign::default(),
        random: Random::new(!seed),
    };
    let mut agreeing = 0;
    for log in &logs {
        report.check(log.title, || {
            expect_stored(log, &stored)?;
            let said = player.play(log)?;
            let (agrees, text) = judge(log, &said)?;
            agreeing += usize::from(agrees);
            Ok(text)
        });
    }
    report.check("logs of crate cases that agree", || {
        let numbers = format!("{agreeing} of {}, {} are stored", logs.len(), stored.len());
        match agreeing + OTHERS.len() == logs.len() && logs.len() == stored.len() {
            true => Ok(numbers),
            false => Err(numbers),
        }
    });
}

/// The log but for its call lines is the one stored under its title.
fn expect_stored(log: &Logged, stored: &[(&str, String)]) -> Result<(), String> {
    let lines = log.log_with_calls.split_inclusive('\n');
    let left: String = lines
        .filter(|line| line.split('\t').nth(1) != Some("call"))
        .collect();
    let found = stored.iter().find(|(title, _)| *title == log.title);
    match found.map(|(_, text)| text) {
        Some(text) if *text == left && left == log.log => Ok(()),
        text => Err(format!("stored {text:?}\nmodel  {left:?}")),
    }
}

/// What plays a log.
struct Player<'a> {
    program: &'a Program,
    campaign: Campaign,
    random: Random,
}

/// What is said of a log: the first line of the report's text.
struct Said {
    /// With as much lent as its script lends.
    by_functions: String,
    /// With what the program lends.
    by_program: String,
}

impl Player<'_> {
    /// The functions and the program say what the model says.
    fn play(&mut self, log: &Logged) -> Result<Said, String> {
        let shape = Shape {
            words: log.lent,
            entries: log.lent,
        };
        let case = |shape| Case {
            shape,
            text: log.log_with_calls.clone().into_bytes(),
        };
        self.campaign.play(&mut self.random, None, &case(shape))?;
        let due = told(&case(LENT));
        let printed = self.program.play(log.log_with_calls.as_bytes())?;
        if printed != due.as_bytes() {
            let printed = String::from_utf8_lossy(&printed);
            return Err(format!("program:\n{printed}\nmodel:\n{due}"));
        }
        let first = |text: String| text.lines().next().unwrap_or_default().to_string();
        Ok(Said {
            by_functions: first(told(&case(shape))),
            by_program: first(due),
        })
    }
}

/// The text of the model's report.
fn told(case: &Case) -> String {
    let report = replay(case.shape.entries, case.shape.words, &case.text);
    text(case, report)
}

/// Whether a log agrees, as it must unless it is one of the others; and what is said of it.
fn judge(log: &Logged, said: &Said) -> Result<(bool, String), String> {
    let Said {
        by_functions,
        by_program,
    } = said;
    let agree = format!("all agree, {} lines", log.log_with_calls.lines().count());
    let wrong = Err(format!("functions: {by_functions}; program: {by_program}"));
    match OTHERS.iter().find(|(title, ..)| *title == log.title) {
        None if [by_functions, by_program] != [&agree; 2] => wrong,
        None => Ok((true, agree)),
        Some((_, line, _)) if *by_functions != format!("line {line} differs") => wrong,
        Some(_) if *by_program == agree => wrong,
        Some((_, line, why)) => Ok((false, format!("line {line} differs: its script {why}"))),
    }
}
