//! T-10: a history in which the guest keeps the rules. Raises behind a port whose word the guest
//! changes meanwhile, so that calls get as long as they can; then a backlog, and services alone.

use super::coverage::{Coverage, Kept};
use super::hostile::prologue;
use super::pair::Pair;
use crate::model::claims::{Judge, Queues, Turns};
use crate::model::machine::Stepped;
use crate::model::{Answer, Model, Next, ServiceStage, Side, Stage, Step, World};
use crate::random::Random;

const PORTS: [u64; 6] = [1, 2, 3, 5, 9, 12];
const PRIORITIES: [u64; 4] = [0, 3, 7, 15];
/// Contested raises of a history.
const CONTESTS: usize = 4;
/// Steps that none of a history's loops reaches.
const ENOUGH: usize = 400;

/// A history under way: each step is made by both, and judged.
struct Run<'a> {
    pair: &'a mut Pair,
    random: &'a mut Random,
    coverage: &'a mut Coverage,
    judge: Judge,
}

/// One history from a seed.
pub fn history(
    pair: &mut Pair,
    random: &mut Random,
    model: Model,
    coverage: &mut Coverage,
) -> Result<(), String> {
    pair.begin_fresh(World::fresh(model, 2048, 16), random, coverage)?;
    let judge = Judge::default();
    let mut run = Run {
        pair,
        random,
        coverage,
        judge,
    };
    run.begin()?;
    for _ in 0..CONTESTS {
        run.contest()?;
        run.settle()?;
    }
    run.pile_up()?;
    run.serve_all()?;
    run.pair.finish()
}

impl Run<'_> {
    fn step(&mut self, step: Step) -> Result<Stepped, String> {
        let stepped = self.pair.step(step, self.coverage)?;
        self.judge.after(&self.pair.world, &stepped)?;
        Ok(stepped)
    }

    /// A call from its start to its answer.
    fn call(&mut self, step: Step, side: Side) -> Result<Answer, String> {
        let mut next = self.step(step)?.next;
        loop {
            match next {
                Next::Answer(answer, _) => return Ok(answer),
                Next::Access(_) => next = self.step(Step::Access(side))?.next,
            }
        }
    }

    fn hypervisor(&mut self, step: Step) -> Result<Answer, String> {
        self.call(step, Side::Hypervisor)
    }

    fn service(&mut self) -> Result<Answer, String> {
        self.call(Step::Service, Side::Guest)
    }

    /// The ports bound, with priorities of their own.
    fn begin(&mut self) -> Result<(), String> {
        for step in prologue() {
            self.step(step)?;
        }
        for port in PORTS {
            let priority = self.random.pick(&PRIORITIES);
            self.hypervisor(Step::Bind(port))?;
            self.hypervisor(Step::SetPriority { port, priority })?;
        }
        Ok(())
    }

    /// A port is taken by a service that is to make G4, and raised again; another is raised behind
    /// it, while the guest goes on and changes its word.
    fn contest(&mut self) -> Result<(), String> {
        let at = self.random.below(PORTS.len() as u64) as usize;
        let (tail, port) = (PORTS[at], PORTS[(at + 1) % PORTS.len()]);
        let priority = self.random.pick(&PRIORITIES);
        for port in [tail, port] {
            self.hypervisor(Step::SetPriority { port, priority })?;
        }
        self.hypervisor(Step::Raise(tail))?;
        self.step(Step::Service)?;
        while self.is_before_g4() {
            self.step(Step::Access(Side::Guest))?;
        }
        self.hypervisor(Step::Raise(tail))?;
        let mut next = self.step(Step::Raise(port))?.next;
        while let Next::Access(_) = next {
            if self.is_at_the_tail() && !self.random.once_in(4) {
                self.change(tail)?;
            }
            next = self.step(Step::Access(Side::Hypervisor))?.next;
        }
        if let Next::Answer(_, count) = next {
            self.coverage.note_kept_length(count);
        }
        Ok(())
    }

    fn is_before_g4(&self) -> bool {
        let service = self.pair.world.guest.call;
        service.is_some_and(|s| !matches!(s.stage, ServiceStage::G4 { .. }))
    }

    /// Whether the hypervisor's call is about to change the word of a tail.
    fn is_at_the_tail(&self) -> bool {
        let stage = self.pair.world.domain.call.map(|call| call.stage);
        matches!(stage, Some(Stage::R4 { .. } | Stage::SetBusy { .. }))
    }

    /// The guest masks the port, clears its mask, or serves until the port's word has changed.
    fn change(&mut self, port: u64) -> Result<(), String> {
        let word = self.pair.world.memory.words[port as usize];
        match self.random.below(5) {
            0 | 1 => self.step(Step::Mask(port)).map(drop),
            2 => self.call(Step::ClearMask(port), Side::Guest).map(drop),
            _ => {
                for _ in 0..8 {
                    self.go_on()?;
                    if self.pair.world.memory.words[port as usize] != word {
                        break;
                    }
                }
                Ok(())
            }
        }
    }

    /// The guest's next access, or the start of a service.
    fn go_on(&mut self) -> Result<Stepped, String> {
        match self.pair.world.due(Side::Guest) {
            Some(_) => self.step(Step::Access(Side::Guest)),
            None => self.step(Step::Service),
        }
    }

    /// The guest's calls end, nothing stands any more, and no port is masked.
    fn settle(&mut self) -> Result<(), String> {
        while self.pair.world.due(Side::Guest).is_some() {
            self.step(Step::Access(Side::Guest))?;
        }
        for port in PORTS {
            self.hypervisor(Step::Unmask(port))?;
        }
        while self.service()? != Answer::Idle {}
        Ok(())
    }

    /// Nothing, or raises of ports of one priority, a service, and raises of others too, a mask, and
    /// perhaps a raise that stands where it is.
    fn pile_up(&mut self) -> Result<(), String> {
        if self.random.once_in(6) {
            return Ok(());
        }
        let (some, others) = PORTS.split_at(PORTS.len() / 2);
        for ports in [some, others] {
            let priority = self.random.pick(&PRIORITIES);
            for port in ports.iter().copied() {
                self.hypervisor(Step::SetPriority { port, priority })?;
            }
        }
        self.raise_among(some)?;
        if !self.random.once_in(4) {
            self.service()?;
        }
        self.raise_among(&PORTS)?;
        if self.random.once_in(2) {
            let port = self.random.pick(&PORTS);
            self.step(Step::Mask(port))?;
        }
        if self.random.once_in(3) {
            let port = self.random.pick(&PORTS);
            self.step(Step::Raise(port))?;
            for _ in 0..self.random.below(4) {
                self.step(Step::Access(Side::Hypervisor))?;
            }
        }
        Ok(())
    }

    fn raise_among(&mut self, ports: &[u64]) -> Result<(), String> {
        for _ in 0..1 + self.random.below(5) {
            let port = self.random.pick(ports);
            self.hypervisor(Step::Raise(port))?;
        }
        Ok(())
    }

    /// Services alone, with starts and accesses that are refused among their steps.
    fn serve_all(&mut self) -> Result<(), String> {
        let mut turns = Turns::from(&self.pair.world).map_err(|error| format!("{error:?}"))?;
        let met = met(&self.pair.world)?;
        let mut taken = false;
        for _ in 0..ENOUGH {
            if turns.services > turns.ports.len() + 1 {
                met.into_iter()
                    .for_each(|kept| self.coverage.meet_kept(kept));
                taken.then(|| self.coverage.meet_kept(Kept::Taken));
                return Ok(());
            }
            let stepped = match self.random.once_in(8) {
                true => self.out_of_place()?,
                false => self.go_on()?,
            };
            stepped.events.iter().try_for_each(|e| turns.note(e))?;
            taken |= matches!(stepped.next, Next::Answer(Answer::NotHandedOver(_), _));
        }
        Err("services do not end".to_string())
    }

    /// A start during a service, or an access where none is under way.
    fn out_of_place(&mut self) -> Result<Stepped, String> {
        match self.pair.world.due(Side::Guest) {
            Some(_) => self.step(Step::Service),
            None => self.step(Step::Access(Side::Guest)),
        }
    }
}

/// What a backlog has that services are to go through.
fn met(world: &World) -> Result<Vec<Kept>, String> {
    let queues = Queues::of(world).map_err(|error| format!("{error:?}"))?;
    let standing = queues.0.iter().filter(|ports| !ports.is_empty());
    let (local, ready) = (world.guest.local, world.memory.control.ready);
    let left_over = local != 0 && ready != 0 && local.trailing_zeros() < ready.trailing_zeros();
    let has = [
        (Kept::NothingStands, queues.0.iter().all(Vec::is_empty)),
        (Kept::SeveralQueues, standing.count() > 1),
        (Kept::SeveralPorts, queues.0.concat().len() > 3),
        (Kept::LeftOver, left_over),
        (Kept::Standing, world.domain.call.is_some()),
    ];
    Ok(has
        .into_iter()
        .filter(|(_, has)| *has)
        .map(|(kept, _)| kept)
        .collect())
}
