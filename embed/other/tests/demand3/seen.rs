//! How often the events came that the check is about.

use other::generator::{Halves, Learning};

/// What was seen over many runs.
#[derive(Debug, Default)]
pub struct Seen {
    pub calls: u32,
    pub committed: u32,
    /// Committed where another commit came before in the slot.
    pub again: u32,
    pub outbid: u32,
    pub failed: u32,
    pub refused: u32,
    /// Catalogues with a piece that was struck.
    pub struck: u32,
    pub longest_list: usize,
    pub halves: Halves,
    pub learning: Learning,
    pub asks: Asks,
    pub puts: Puts,
}

impl Seen {
    /// The least of the counts of what Asks and Puts can answer in a run.
    pub fn least_of_asks_and_puts(&self) -> u32 {
        let Seen { asks, puts, .. } = self;
        let asks = [asks.named, asks.beyond, asks.none_free];
        let named = [puts.straight, puts.straight_refused];
        let puts = [puts.done, puts.late, puts.beyond, puts.no_command, puts.not_free];
        asks.into_iter().chain(named).chain(puts).min().unwrap_or(0)
    }
}

/// How often Asks were answered so.
#[derive(Debug, Default)]
pub struct Asks {
    pub named: u32,
    /// Refused with 4, and with 17.
    pub beyond: u32,
    pub none_free: u32,
}

/// How often Puts were answered so.
#[derive(Debug, Default)]
pub struct Puts {
    pub done: u32,
    /// Straight after the Ask that named the slot: done, and refused with 5.
    pub straight: u32,
    pub straight_refused: u32,
    /// Done where a commit came before in the slot.
    pub late: u32,
    /// Slots in which the first commit came after Puts and no Offer.
    pub settled: u32,
    /// Refused with 4, 5 and 16.
    pub beyond: u32,
    pub no_command: u32,
    pub not_free: u32,
}
