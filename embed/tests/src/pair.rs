//! One row of cells, lent to both implementations.

use other::generator::{Call, Reply};
use other::{limits_of, Answer, Limits, Step};
use register::{Error, NotOpened, Room};

use crate::same::{answer, register_step};

/// The same cells twice.
pub struct Pair {
    mine: Room,
    theirs: Vec<u32>,
    before: Vec<u32>,
}

impl Pair {
    /// A row with these cells.
    pub fn over(cells: Vec<u32>) -> Pair {
        Pair { mine: Room::over(cells.clone()), theirs: cells.clone(), before: cells }
    }

    /// The cells, the same in both.
    pub fn cells(&self) -> &[u32] {
        &self.theirs
    }

    /// Changes one cell in both.
    pub fn set(&mut self, at: usize, value: u32) {
        let mut cells = std::mem::replace(&mut self.mine, Room::over(Vec::new())).into_row();
        cells[at] = value;
        self.mine = Room::over(cells);
        self.theirs[at] = value;
        self.before[at] = value;
    }

    /// Opens the row with these limits.
    pub fn open(
        &mut self,
        servers: u32,
        drives: u32,
        slots: u32,
        limits: Limits,
    ) -> Result<(), u32> {
        let theirs = other::open(&mut self.theirs, servers, drives, slots, &limits);
        let cells = std::mem::replace(&mut self.mine, Room::over(Vec::new())).into_row();
        let mine = match Room::open_in_with(cells, servers, drives, slots, limits.into()) {
            Ok(room) => {
                self.mine = room;
                Ok(())
            }
            Err(NotOpened { error, row }) => {
                self.mine = Room::over(row);
                Err(error.number())
            }
        };
        let cells = self.theirs.len();
        assert_eq!(mine, theirs, "open {servers} {drives} {slots} {limits:?} in {cells} cells");
        if theirs.is_ok() {
            self.before.copy_from_slice(&self.theirs);
        }
        self.compare(true, "open");
        theirs
    }

    /// Takes a step.
    pub fn step(&mut self, step: Step) -> Answer {
        let theirs = other::step(&mut self.theirs, step);
        let mine = answer(self.mine.step(register_step(step)));
        assert_eq!(mine, theirs, "{step:?}");
        self.compare(matches!(theirs, Answer::Refused(_)), step);
        theirs
    }

    /// Takes the step of a record, which may be bad.
    pub fn step_record(&mut self, bytes: &[u8]) -> Answer {
        let theirs = match other::read_record(bytes) {
            Ok((step, _)) => other::step(&mut self.theirs, step),
            Err(number) => Answer::Refused(number),
        };
        let mine = answer(self.mine.step_record(bytes));
        assert_eq!(mine, theirs, "step {bytes:02x?}");
        self.compare(matches!(theirs, Answer::Refused(_)), bytes);
        theirs
    }

    /// The lowest slot that is free for a server. Every cell stays.
    pub fn ask(&mut self, server: u32) -> Result<u32, u32> {
        let theirs = other::ask(&self.theirs, server);
        let mine = self.mine.ask(server).map_err(Error::number);
        assert_eq!(mine, theirs, "ask {server}");
        self.compare(true, Call::Ask { server });
        theirs
    }

    /// Offers a command in a slot that is free for the server.
    pub fn put(&mut self, server: u32, slot: u32, command: u32) -> Result<(), u32> {
        let theirs = other::put(&mut self.theirs, server, slot, command);
        let mine = self.mine.put(server, slot, command).map_err(Error::number);
        assert_eq!(mine, theirs, "put {server} {slot} {command}");
        self.compare(theirs.is_err(), Call::Put { server, slot, command });
        theirs
    }

    /// The next step of a server, and its record in so many bytes that hold other
    /// values. Every cell stays, and every byte beyond the record.
    pub fn next(&mut self, server: u32, slot: u32, length: usize) -> Result<Option<Step>, u32> {
        let step = other::next(&self.theirs, server, slot);
        let mine = self.mine.next(server, slot).map_err(Error::number);
        assert_eq!(mine, step.map(|step| step.map(register_step)), "next of {server} in {slot}");
        let old: Vec<u8> = (0..length as u8).map(|place| place ^ 0x55).collect();
        let (mut my_bytes, mut their_bytes) = (old.clone(), old.clone());
        let theirs = other::next_record(&self.theirs, server, slot, &mut their_bytes);
        let mine = self.mine.next_record(server, slot, &mut my_bytes).map_err(Error::number);
        assert_eq!(mine, theirs, "next of {server} in {slot}, in {length} bytes");
        assert_eq!(my_bytes, their_bytes, "bytes of the next step of {server} in {slot}");
        let used = theirs.ok().flatten().unwrap_or(0);
        assert_eq!(my_bytes[used..], old[used..], "bytes beyond the next step of {server}");
        self.compare(true, ("next", server, slot));
        step
    }

    /// Makes a call of a run.
    pub fn call(&mut self, call: Call) -> Reply {
        match call {
            Call::Step(step) => Reply::Answer(self.step(step)),
            Call::Ask { server } => Reply::of_ask(self.ask(server)),
            Call::Put { server, slot, command } => Reply::of_put(self.put(server, slot, command)),
        }
    }

    /// The catalogue of a server, in so many cells that hold other numbers.
    pub fn catalogue(&self, server: u32, cells: usize) -> Result<(u32, u32), u32> {
        let old: Vec<u32> = (0..cells as u32).map(|cell| cell ^ 0x5555_5555).collect();
        let (mut my_cells, mut their_cells) = (old.clone(), old.clone());
        let theirs = other::catalogue(&self.theirs, server, &mut their_cells);
        let mine = self.mine.catalogue_in(server, &mut my_cells).map_err(Error::number);
        assert_eq!(mine, theirs, "catalogue of {server} in {cells} cells");
        assert_eq!(my_cells, their_cells, "cells of the catalogue of {server}");
        if theirs.is_err() {
            assert_eq!(my_cells, old, "cells after a refused catalogue of {server}");
        }
        theirs
    }

    /// Compares every cell. After a refusal, an Ask or a next the cells are compared
    /// with those before it, which it keeps; no call keeps less than the limits.
    fn compare(&mut self, kept: bool, call: impl std::fmt::Debug) {
        assert!(
            self.mine.cells() == self.theirs,
            "cells differ after {call:?}: {:?}",
            self.difference()
        );
        if kept {
            assert!(self.theirs == self.before, "a cell changed at {call:?}, which keeps them all");
        } else {
            let (limits, before) = (limits_of(&self.theirs), limits_of(&self.before));
            assert_eq!(limits, before, "a limit changed at {call:?}");
            self.before.copy_from_slice(&self.theirs);
        }
    }

    /// The first cell that differs, with both values.
    fn difference(&self) -> Option<(usize, u32, u32)> {
        let cells = self.mine.cells().iter().zip(&self.theirs).enumerate();
        cells
            .map(|(at, (&mine, &theirs))| (at, mine, theirs))
            .find(|&(_, mine, theirs)| mine != theirs)
    }
}
