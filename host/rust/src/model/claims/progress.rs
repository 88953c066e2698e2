//! T-10, how soon a port is served: where no call of the guest's is under way and it only services,
//! the services take the ports that stand, one each, queue by queue, 0 first, each in its order,
//! and then answer 20.

use super::queues::{Queues, WalkError};
use crate::model::answer::{Answer, Next};
use crate::model::kinds::Port;
use crate::model::machine::{Event, Maker, Side, Step, World};

/// Most accesses of a service.
const MOST: u32 = 5;

/// The services from a world on.
#[derive(Clone, Debug)]
pub struct Turns {
    /// The ports that stood, in the order in which they are to be taken.
    pub ports: Vec<Port>,
    /// Services that ended.
    pub services: usize,
    accesses: u32,
}

impl Turns {
    /// From this world on.
    pub fn from(world: &World) -> Result<Self, WalkError> {
        let ports = Queues::of(world)?.0.concat();
        Ok(Turns {
            ports,
            services: 0,
            accesses: 0,
        })
    }

    /// Adds an event of a service: an access, or an answer; 15 and 16 end none.
    pub fn note(&mut self, event: &Event) -> Result<(), String> {
        match event {
            Event::Accessed(accessed) if matches!(accessed.maker, Maker::Service(_)) => {
                self.accesses += 1;
                Ok(())
            }
            Event::Answered(Side::Guest, Answer::UnderWay | Answer::NoCall, 0) => Ok(()),
            Event::Answered(Side::Guest, answer, _) => self.ended(*answer),
            _ => Err(format!("{event:?} is no service's")),
        }
    }

    fn ended(&mut self, answer: Answer) -> Result<(), String> {
        let wanted = self.ports.get(self.services).copied();
        let given = match answer {
            Answer::HandedOver(port) | Answer::NotHandedOver(port) => Some(port),
            Answer::Idle => None,
            other => return Err(format!("a service answers {other:?}")),
        };
        self.services += 1;
        let (services, accesses) = (self.services, self.accesses);
        if given != wanted {
            return Err(format!("service {services} takes {given:?} for {wanted:?}"));
        }
        if accesses > MOST * services as u32 {
            return Err(format!("{accesses} accesses of {services} services"));
        }
        Ok(())
    }

    /// Whether every port was taken, and one service more found nothing.
    pub fn is_over(&self) -> bool {
        self.services > self.ports.len()
    }
}

/// Services of a world, which are made on it until one finds nothing.
pub fn served_in_turn(world: &mut World) -> Result<(), String> {
    let mut turns = Turns::from(world).map_err(|error| format!("{error:?}"))?;
    while !turns.is_over() {
        serve(world, &mut turns)?;
    }
    Ok(())
}

/// One service, which ends within five accesses.
fn serve(world: &mut World, turns: &mut Turns) -> Result<(), String> {
    if let Next::Answer(answer, _) = world.step(Step::Service).next {
        return Err(format!("a service is refused with {answer:?}"));
    }
    for _ in 0..MOST {
        let stepped = world.step(Step::Access(Side::Guest));
        stepped.events.iter().try_for_each(|e| turns.note(e))?;
        if let Next::Answer(..) = stepped.next {
            return Ok(());
        }
    }
    Err("a service wants a sixth access".to_string())
}
