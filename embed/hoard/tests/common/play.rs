//! A scenario that is made and played with the other implementation.

use other::generator::{Call, Caller, Chance, Habits, Reply};
use other::{next, open, step, Answer, Limits, Sizes, Step, USUAL_LIMITS};

use super::places::{places, Places};
use super::{drawn, speech};

/// The cells of a server's record.
pub type Record = [u32; 11];
/// The cells of a block.
pub type Block = [u32; 4];

/// What a call concerns, as the room stands.
#[derive(Clone, Debug, PartialEq, Eq)]
pub struct Seen {
    /// The off marks.
    pub off: u32,
    /// The records of the server with their slots.
    pub servers: Vec<(u32, Record)>,
    /// The block that is recalled, written or read.
    pub block: Option<Block>,
}

/// A call, and what the other implementation made of it.
#[derive(Clone, Debug)]
pub struct Made {
    /// The line of the scenario, from 1.
    pub line: usize,
    /// The call.
    pub call: Call,
    /// Whether it is a step of a settle.
    pub settling: bool,
    /// What it answered.
    pub reply: Reply,
    /// What it concerns, before it.
    pub before: Seen,
    /// The same, after it.
    pub after: Seen,
}

/// How a settle ended.
#[derive(Clone, Copy, Debug, PartialEq, Eq)]
pub enum End {
    /// After so many steps, with this command.
    Settled(usize, u32),
    /// After so many steps there was none, for this reason.
    None(usize, Why),
    /// It was refused with this number, with these off marks.
    Refused(u32, u32),
}

/// Why there is no next step.
#[derive(Clone, Copy, Debug, PartialEq, Eq)]
pub enum Why {
    /// The server is in phase 3.
    Settled,
    /// There is no command to choose.
    Nothing,
    /// There is no ballot left.
    Ballot,
}

/// What a run shows, in its order.
#[derive(Clone, Debug)]
pub enum Shown {
    /// A settle begins.
    Begins(u8, u8),
    /// A call.
    Made(Box<Made>),
    /// A settle ends.
    Ends(End),
}

/// A scenario, and what it shows.
#[derive(Clone, Debug)]
pub struct Play {
    /// The sizes of its room.
    pub sizes: Sizes,
    /// Its room.
    pub room: Vec<u32>,
    /// Its text.
    pub text: String,
    /// What is shown.
    pub shown: Vec<Shown>,
    /// How many lines the text has.
    lines: usize,
}

impl Play {
    /// A new room, with these limits where they are named.
    pub fn new(sizes: Sizes, limits: Option<&Limits>) -> Play {
        let mut room = vec![0; sizes.length()];
        let [servers, drives, slots] = drawn::head(sizes)[..] else { panic!("three sizes") };
        let (servers, drives, slots) = (servers.into(), drives.into(), slots.into());
        let opened = open(&mut room, servers, drives, slots, limits.unwrap_or(&USUAL_LIMITS));
        assert_eq!(opened, Ok(()), "{sizes:?} {limits:?}");
        let mut play = Play { sizes, room, text: String::new(), shown: Vec::new(), lines: 0 };
        play.say(&speech::room(sizes));
        if let Some(limits) = limits {
            play.say(&speech::limits(limits));
        }
        play
    }

    /// A random run of so many calls and settles.
    pub fn random(chance: &mut Chance, sizes: Sizes, limits: Option<&Limits>, count: u32) -> Play {
        let mut play = Play::new(sizes, limits);
        let habits = Habits::any(chance);
        let mut caller = Caller::new(chance, sizes, habits);
        let settles = chance.one_of(&[0, 8, 40]);
        for _ in 0..count {
            if chance.per_mille(settles) {
                let place = |chance: &mut Chance, size| {
                    (chance.place(size) + usize::from(chance.one_in(20))) as u8
                };
                play.settle(place(chance, sizes.servers), place(chance, sizes.slots));
            }
            let call = caller.next_call(chance, &play.room);
            let reply = play.call(call);
            caller.hear(call, reply);
        }
        play
    }

    /// Makes a call. One whose numbers don't fit in words is refused and stands in no line.
    pub fn call(&mut self, call: Call) -> Reply {
        let Some(words) = speech::call(call) else {
            let reply = call.make(&mut self.room);
            assert_eq!(reply, Reply::Answer(Answer::Refused(4)), "{call:?}");
            return reply;
        };
        self.say(&words);
        self.make(call, false)
    }

    /// Follows next until a step commits or there is none.
    pub fn settle(&mut self, server: u8, slot: u8) {
        self.say(&speech::settle(server, slot));
        self.shown.push(Shown::Begins(server, slot));
        let end = self.follow(server, slot);
        self.shown.push(Shown::Ends(end));
    }

    /// The calls that were made.
    pub fn made(&self) -> impl Iterator<Item = &Made> {
        self.shown.iter().filter_map(|shown| match shown {
            Shown::Made(made) => Some(&**made),
            _ => None,
        })
    }

    /// The input for rehearse: an Offer in place of each Put that was accepted, and no Ask.
    pub fn bytes(&self) -> Vec<u8> {
        let mut bytes = drawn::head(self.sizes);
        for made in self.made() {
            bytes.extend(made.step().map(drawn::record).unwrap_or_default());
        }
        bytes
    }

    /// Adds a line to the text.
    fn say(&mut self, line: &str) {
        self.text += line;
        self.text.push('\n');
        self.lines += 1;
    }

    /// Takes the steps that next gives.
    fn follow(&mut self, server: u8, slot: u8) -> End {
        let mut steps = 0;
        loop {
            let step = match next(&self.room, server.into(), slot.into()) {
                Err(number) => return End::Refused(number, self.room[3]),
                Ok(None) => {
                    return End::None(steps, self.why_none(server, slot));
                }
                Ok(Some(step)) => step,
            };
            steps += 1;
            if let Reply::Answer(Answer::Committed(value)) = self.make(Call::Step(step), true) {
                return End::Settled(steps, value);
            }
        }
    }

    /// Why a server has no next step: whether it would have one, did it offer a command.
    fn why_none(&self, server: u8, slot: u8) -> Why {
        if self.room[self.sizes.server_at(slot.into(), server.into())] == 3 {
            return Why::Settled;
        }
        let mut offered = self.room.clone();
        let strike = Step::Offer { server, slot, number: 3 << 16 };
        assert_eq!(step(&mut offered, strike), Answer::Done);
        match next(&offered, server.into(), slot.into()) {
            Ok(Some(_)) => Why::Nothing,
            _ => Why::Ballot,
        }
    }

    /// Makes a call of the last line.
    fn make(&mut self, call: Call, settling: bool) -> Reply {
        let before = self.seen(call);
        let reply = call.make(&mut self.room);
        let after = self.seen(call);
        let made = Made { line: self.lines, call, settling, reply, before, after };
        self.shown.push(Shown::Made(Box::new(made)));
        reply
    }

    /// What a call concerns.
    fn seen(&self, call: Call) -> Seen {
        let Places { slot, drive, owner, .. } = places(call);
        let block = owner.zip(slot).zip(drive).and_then(|((owner, slot), drive)| {
            let within = self.has(owner, slot) && (drive as usize) < self.sizes.drives;
            let at = || self.sizes.block_at(slot as usize, drive as usize, owner as usize);
            within.then(|| self.cells(at()))
        });
        Seen { off: self.room[3], servers: self.servers(call), block }
    }

    /// The records that a call concerns: that in the slot which it names, or those of all slots.
    fn servers(&self, call: Call) -> Vec<(u32, Record)> {
        let Places { server: Some(server), slot, .. } = places(call) else { return Vec::new() };
        let slots = slot.map_or(0..self.sizes.slots as u32, |slot| slot..slot + 1);
        let within = slots.filter(|&slot| self.has(server, slot));
        let at = |slot: u32| self.sizes.server_at(slot as usize, server as usize);
        within.map(|slot| (slot, self.cells(at(slot)))).collect()
    }

    /// Whether the room has this server and this slot.
    fn has(&self, server: u32, slot: u32) -> bool {
        (server as usize) < self.sizes.servers && (slot as usize) < self.sizes.slots
    }

    /// The cells from a place on.
    fn cells<const COUNT: usize>(&self, at: usize) -> [u32; COUNT] {
        self.room[at..at + COUNT].try_into().expect("there are as many")
    }
}

impl Made {
    /// The step that stands for it in an input for rehearse.
    pub fn step(&self) -> Option<Step> {
        match (self.call, self.reply) {
            (Call::Step(step), _) => Some(step),
            (Call::Put { server, slot, command }, Reply::Answer(Answer::Done)) => {
                Some(Step::Offer { server: server as u8, slot: slot as u8, number: command })
            }
            _ => None,
        }
    }
}
