//! The calls of a run: the steps of a driver with Asks and Puts among them.
//! Neither has a step record, so inputs for rehearse have steps alone.

use super::chance::Chance;
use super::driver::Driver;
use super::habits::Habits;
use super::noise::any_command;
use crate::free_slots::{ask, put};
use crate::room::Sizes;
use crate::steps::{step, Answer, Step};

/// A call that may stand in a run's list.
#[derive(Clone, Copy, Debug, PartialEq, Eq)]
#[allow(missing_docs)]
pub enum Call {
    Step(Step),
    Ask { server: u32 },
    Put { server: u32, slot: u32, command: u32 },
}

impl Call {
    /// Makes the call.
    pub fn make(self, room: &mut [u32]) -> Reply {
        match self {
            Call::Step(next) => Reply::Answer(step(room, next)),
            Call::Ask { server } => Reply::of_ask(ask(room, server)),
            Call::Put { server, slot, command } => Reply::of_put(put(room, server, slot, command)),
        }
    }
}

/// What a call answers.
#[derive(Clone, Copy, Debug, PartialEq, Eq)]
pub enum Reply {
    /// The answer of a step, the done of a Put, or a refusal.
    Answer(Answer),
    /// The slot that an Ask names.
    Slot(u32),
}

impl Reply {
    /// The reply of an Ask.
    pub fn of_ask(result: Result<u32, u32>) -> Reply {
        match result {
            Ok(slot) => Reply::Slot(slot),
            Err(number) => Reply::Answer(Answer::Refused(number)),
        }
    }

    /// The reply of a Put.
    pub fn of_put(result: Result<(), u32>) -> Reply {
        match result {
            Ok(()) => Reply::Answer(Answer::Done),
            Err(number) => Reply::Answer(Answer::Refused(number)),
        }
    }

    /// The number of a refusal.
    pub fn refusal(self) -> Option<u32> {
        match self {
            Reply::Answer(Answer::Refused(number)) => Some(number),
            _ => None,
        }
    }
}

/// Who makes the calls of one run: a driver, and servers that ask and put.
#[derive(Clone, Debug)]
pub struct Caller {
    driver: Driver,
    sizes: Sizes,
    /// How many of a thousand calls are neither a step nor in place of one.
    /// Where it is 0 the run has steps alone.
    rate: u32,
    /// Each slot that an Ask has named and no Put has taken up yet, with the
    /// server that asked.
    named: Vec<(u32, u32)>,
    /// Whether the last call was an Ask that named a slot, the last of `named`.
    asked: bool,
}

impl Caller {
    /// The callers of a new run.
    pub fn new(chance: &mut Chance, sizes: Sizes, habits: Habits) -> Caller {
        let driver = Driver::new(chance, sizes, habits);
        let rate = chance.one_of(&[0, 20, 60, 200]);
        Caller { driver, sizes, rate, named: Vec::new(), asked: false }
    }

    /// The next call of the run, in the room as it stands.
    pub fn next_call(&mut self, chance: &mut Chance, room: &[u32]) -> Call {
        if self.asked && !chance.one_in(4) {
            let last = self.named.len() - 1;
            return self.put_in_named(chance, room, last);
        }
        if chance.per_mille(self.rate) {
            return match chance.below(8) {
                0..=3 => Call::Ask { server: any_number(chance, self.sizes.servers) },
                4 | 5 if !self.named.is_empty() => {
                    let place = chance.place(self.named.len());
                    self.put_in_named(chance, room, place)
                }
                _ => self.put_anywhere(chance, room),
            };
        }
        match self.driver.next_step(chance, room) {
            Step::Offer { server, slot, number } if self.rate > 0 => {
                for_offer(chance, server, slot, number)
            }
            next => Call::Step(next),
        }
    }

    /// Takes in what the call answered.
    pub fn hear(&mut self, call: Call, reply: Reply) {
        self.asked = false;
        match (call, reply) {
            (Call::Step(_), Reply::Answer(answer)) => self.driver.hear(answer),
            (Call::Ask { server }, Reply::Slot(slot)) => {
                self.named.push((server, slot));
                self.asked = true;
            }
            _ => {}
        }
    }

    /// A Put by a server that has asked, in the slot that was named then.
    fn put_in_named(&mut self, chance: &mut Chance, room: &[u32], place: usize) -> Call {
        let (server, slot) = self.named.swap_remove(place);
        Call::Put { server, slot, command: any_command(chance, room, self.driver.pieces()) }
    }

    /// A Put in any slot, free or not.
    fn put_anywhere(&self, chance: &mut Chance, room: &[u32]) -> Call {
        Call::Put {
            server: any_number(chance, self.sizes.servers),
            slot: any_number(chance, self.sizes.slots),
            command: any_command(chance, room, self.driver.pieces()),
        }
    }
}

/// The call where the driver offers a command: the Offer, a Put in its place, or
/// an Ask, after which a Put may follow.
fn for_offer(chance: &mut Chance, server: u8, slot: u8, number: u32) -> Call {
    match chance.below(3) {
        0 => Call::Step(Step::Offer { server, slot, number }),
        1 => Call::Put { server: server.into(), slot: slot.into(), command: number },
        _ => Call::Ask { server: server.into() },
    }
}

/// A number below `size`, now and then one of 32 bits that is not. The last byte
/// of many of these is below it.
fn any_number(chance: &mut Chance, size: usize) -> u32 {
    let within = chance.place(size) as u32;
    if chance.one_in(12) {
        let above = [size as u32, 256, 65_536, 1 << 24, 1 << 31, u32::MAX - within];
        within + chance.one_of(&above)
    } else {
        within
    }
}
