//! What the cases share: a run with its history, and comparisons that give an error text.

use evtchn_fifo_host::model::{log, Entry, Event, Faults, Model, Next, Side, Step, World};

pub use evtchn_fifo_host::model::Side::{Guest as G, Hypervisor as X};

/// What a case gives: nothing, or what differed.
pub type Outcome = Result<(), String>;
/// A case, tried with the right model by a test and with faulty ones by the table of faults.
pub type Case = fn(Model) -> Outcome;

/// Ends the case with an error where the two sides differ.
macro_rules! same {
    ($left:expr, $right:expr) => {
        let (left, right) = (&$left, &$right);
        if left != right {
            let at = concat!(file!(), ":", line!(), ": ", stringify!($left));
            return Err(format!("{at}\n gives {left:?}\nwanted {right:?}"));
        }
    };
}

/// Makes each function a test with the right model, and lists them all.
macro_rules! cases {
    ($($name:ident),* $(,)?) => {
        pub const CASES: &[(&str, crate::support::Case)] = &[$((stringify!($name), $name)),*];

        mod with_the_right_model {
            $(#[test]
            fn $name() {
                crate::support::holds(super::$name);
            })*
        }
    };
}

/// Tries a case with the right model.
pub fn holds(case: Case) {
    if let Err(text) = case(Model::new(Faults::None)) {
        panic!("{text}");
    }
}

/// A world with its history.
pub struct Run {
    pub world: World,
    pub events: Vec<Event>,
}

impl Run {
    /// Fresh records, 4,096 lent words, a ledger of 2,000 entries.
    pub fn fresh(model: Model) -> Self {
        Run {
            world: World::fresh(model, 4096, 2000),
            events: Vec::new(),
        }
    }

    /// Fresh, then block given, one page, told.
    pub fn begun(model: Model) -> Self {
        let mut run = Run::fresh(model);
        run.step(init());
        run.step(expand());
        run.step(Step::Tell(1024));
        run
    }

    /// Begun, then the ports bound.
    pub fn bound(model: Model, ports: &[u64]) -> Self {
        let mut run = Run::begun(model);
        for port in ports {
            run.call(Step::Bind(*port));
        }
        run
    }

    /// One step.
    pub fn step(&mut self, step: Step) -> Next {
        let stepped = self.world.step(step);
        self.events.extend_from_slice(&stepped.events);
        stepped.next
    }

    /// Steps of one side until its answer: number and count.
    pub fn finish(&mut self, side: Side) -> (u32, u32) {
        for _ in 0..30 {
            if let Next::Answer(answer, count) = self.step(Step::Access(side)) {
                return (answer.number(), count);
            }
        }
        (u32::MAX, u32::MAX)
    }

    /// A whole call: number and count.
    pub fn call(&mut self, step: Step) -> (u32, u32) {
        match self.step(step) {
            Next::Answer(answer, count) => (answer.number(), count),
            Next::Access(_) => self.finish(side_of(step)),
        }
    }

    /// The accesses of the hypervisor's call with the words handed back, each step's text.
    pub fn replies(&mut self, words: &[u32]) -> Vec<String> {
        let handed = words.iter().map(|w| self.step(Step::HandBack(X, *w)));
        handed.map(text).collect()
    }

    /// The same for the guest's call.
    pub fn service_replies(&mut self, words: &[u32]) -> Vec<String> {
        let handed = words.iter().map(|w| self.step(Step::HandBack(G, *w)));
        handed.map(text).collect()
    }

    /// The access log of the history.
    pub fn log(&self) -> String {
        log::log(&self.events)
    }

    /// The event word of a port.
    pub fn word(&self, port: usize) -> u32 {
        self.world.memory.words[port]
    }

    /// The ledger entry of a port, as a number.
    pub fn entry(&self, port: usize) -> u16 {
        self.world.ledger[port].bits()
    }

    /// Sets the ledger entry of a port.
    pub fn set_entry(&mut self, port: usize, bits: u16) {
        self.world.ledger[port] = Entry::from_bits(bits);
    }
}

fn side_of(step: Step) -> Side {
    match step {
        Step::Service | Step::ClearMask(_) => G,
        _ => X,
    }
}

/// What a call or reply gave as the log's fields: kind, place, old, operand; or number, count.
pub fn text(next: Next) -> String {
    match next {
        Next::Answer(answer, count) => {
            let port = answer
                .port()
                .map_or(String::new(), |p| format!(" p{}", p.0));
            format!("{}{port} n{count}", answer.number())
        }
        Next::Access(access) => {
            let place = log::place(access.place);
            let words = [access.op.old(), access.op.operand()];
            let words: Vec<String> = words.into_iter().flatten().map(hex).collect();
            [vec![access.op.kind().to_string(), place], words]
                .concat()
                .join(" ")
        }
    }
}

fn hex(word: u32) -> String {
    format!("{word:08X}")
}

/// init_control(0, 1, 0) with 8 frames.
pub fn init() -> Step {
    Step::InitControl {
        vcpu: 0,
        frame: 1,
        frames: 8,
        offset: 0,
    }
}

/// expand_array with a good frame.
pub fn expand() -> Step {
    Step::ExpandArray {
        frame: 2,
        frames: 8,
    }
}
