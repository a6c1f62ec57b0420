//! A server record and a block by value, and majorities of drives.

use crate::room::{BLOCK, RECORD};

/// What a server has on a drive.
#[derive(Clone, Copy, Debug, Default, PartialEq, Eq)]
pub struct Block {
    /// The current ballot.
    pub mbal: u32,
    /// The last ballot in which phase 2 began.
    pub bal: u32,
    /// The command tried in `bal`.
    pub inp: u32,
    /// The command that the server knows to be settled, 0 if none.
    pub done: u32,
}

impl Block {
    /// The block that begins at cell `at`.
    #[inline]
    pub fn load(room: &[u32], at: usize) -> Block {
        let cells = &room[at..at + BLOCK];
        Block { mbal: cells[0], bal: cells[1], inp: cells[2], done: cells[3] }
    }

    /// Puts the block at cell `at`.
    #[inline]
    pub(crate) fn store(self, room: &mut [u32], at: usize) {
        room[at..at + BLOCK].copy_from_slice(&[self.mbal, self.bal, self.inp, self.done]);
    }
}

/// What a server knows in a slot.
#[derive(Clone, Copy, Debug, Default, PartialEq, Eq)]
pub struct Server {
    /// 0 to 3.
    pub phase: u32,
    /// The own ballot.
    pub mbal: u32,
    /// The last own ballot in which phase 2 began.
    pub bal: u32,
    /// The command tried in `bal`.
    pub inp: u32,
    /// The command offered, 0 if none.
    pub offer: u32,
    /// The largest mbal recalled in phase 0.
    pub top: u32,
    /// The best bal met in this phase.
    pub seenbal: u32,
    /// The command of `seenbal`.
    pub seeninp: u32,
    /// Bit d: drive d written in this phase.
    pub written: u32,
    /// Bit 4d + q: server q's block on drive d read in this phase.
    pub read: u32,
    /// The command that the server has put out or learned, 0 if none.
    pub agreed: u32,
}

impl Server {
    /// The record that begins at cell `at`.
    #[inline]
    pub fn load(room: &[u32], at: usize) -> Server {
        let cells = &room[at..at + RECORD];
        Server {
            phase: cells[0],
            mbal: cells[1],
            bal: cells[2],
            inp: cells[3],
            offer: cells[4],
            top: cells[5],
            seenbal: cells[6],
            seeninp: cells[7],
            written: cells[8],
            read: cells[9],
            agreed: cells[10],
        }
    }

    /// Puts the record at cell `at`.
    #[inline]
    pub(crate) fn store(self, room: &mut [u32], at: usize) {
        room[at..at + RECORD].copy_from_slice(&[
            self.phase,
            self.mbal,
            self.bal,
            self.inp,
            self.offer,
            self.top,
            self.seenbal,
            self.seeninp,
            self.written,
            self.read,
            self.agreed,
        ]);
    }

    /// Whether the slot is free for the server: it offers nothing there and is
    /// not in phase 3.
    pub fn is_free(&self) -> bool {
        self.offer == 0 && self.phase != 3
    }

    /// The same server with `command` offered.
    pub(crate) fn offering(self, command: u32) -> Server {
        Server { offer: command, ..self }
    }

    /// The same server in `phase`, cleared.
    pub(crate) fn enter(self, phase: u32) -> Server {
        Server { phase, top: 0, seenbal: self.bal, seeninp: self.inp, written: 0, read: 0, ..self }
    }

    /// The same server in phase 3, with `command` put out.
    pub(crate) fn settled(self, command: u32) -> Server {
        Server { agreed: command, ..self.enter(3) }
    }

    /// The block that a Write stores: the own one, which tells what is settled in
    /// phase 3 alone.
    pub(crate) fn block(&self) -> Block {
        let done = if self.phase == 3 { self.agreed } else { 0 };
        Block { mbal: self.mbal, bal: self.bal, inp: self.inp, done }
    }

    /// Takes the bal and inp of a block that was met, if the bal is larger.
    pub(crate) fn meet(&mut self, block: Block) {
        if block.bal > self.seenbal {
            self.seenbal = block.bal;
            self.seeninp = block.inp;
        }
    }

    /// The command that the server has put out in the slot.
    pub fn output(&self) -> Option<u32> {
        (self.phase == 3 && self.agreed != 0).then_some(self.agreed)
    }

    /// The marks of the drives where server `own` recalled its own block.
    pub fn recalled(&self, own: usize, drives: usize) -> u32 {
        drives_where(drives, |drive| self.read >> (4 * drive + own) & 1 == 1)
    }

    /// The marks of the drives written, with every other server's block read.
    pub fn completed(&self, own: usize, servers: usize, drives: usize) -> u32 {
        let others = ((1 << servers) - 1) & !(1 << own);
        let all_read = |drive: usize| self.read >> (4 * drive) & others == others;
        self.written & drives_where(drives, all_read)
    }
}

/// The marks of the drives for which `holds` says yes.
fn drives_where(drives: usize, holds: impl Fn(usize) -> bool) -> u32 {
    (0..drives).fold(0, |marks, drive| marks | (holds(drive) as u32) << drive)
}

/// Whether the marked drives are a majority of `drives`: more than half of
/// them, or exactly half and drive 0 is marked.
pub fn is_majority(marks: u32, drives: usize) -> bool {
    let twice = 2 * marks.count_ones() as usize;
    twice > drives || twice == drives && marks & 1 == 1
}
