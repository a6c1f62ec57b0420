//! What lasts for some columns: a phase of a server, what a block holds, a drive that is off.

use register::{Block, Server};

use super::view::View;

/// Something that lasts from one column to another.
#[derive(Clone, Copy, Debug, PartialEq, Eq)]
pub struct Span<T> {
    /// The column of the call that began it, none where it stood at the beginning.
    pub from: Option<usize>,
    /// The column of the call that ended it, none where it lasts to the end.
    pub to: Option<usize>,
    /// What lasts.
    pub state: T,
}

/// What a server's band shows.
#[derive(Clone, Copy, Debug, PartialEq, Eq)]
pub struct Band {
    /// The phase.
    pub phase: u32,
    /// The current ballot.
    pub mbal: u32,
    /// The command that was settled, in phase 3.
    pub agreed: u32,
}

impl Band {
    /// That of a record.
    fn of(server: &Server) -> Band {
        let agreed = if server.phase == 3 { server.agreed } else { 0 };
        Band { phase: server.phase, mbal: server.own.mbal, agreed }
    }
}

/// The bands of a server in a slot.
pub fn bands(view: &View, server: u32, slot: u32) -> Vec<Span<Band>> {
    let changes = view.events.iter().enumerate().filter_map(|(column, event)| {
        let (_, after) = event.records(slot).filter(|_| event.server() == Some(server))?;
        Some((column, Band::of(after)))
    });
    spans(Band { phase: 0, mbal: 0, agreed: 0 }, changes)
}

/// What a server's block on a drive holds in a slot, from its first write.
pub fn contents(view: &View, server: u32, drive: u32, slot: u32) -> Vec<Span<Option<Block>>> {
    let changes = view.events.iter().enumerate().filter_map(|(column, event)| {
        let there = (event.slot(), event.drive(), event.owner());
        let wrote = event.wrote() && there == (Some(slot), Some(drive), Some(server));
        wrote.then_some((column, event.after.block))
    });
    spans(None, changes)
}

/// Whether a drive is off.
pub fn off(view: &View, drive: u32) -> Vec<Span<bool>> {
    let is_off = |off: u32| off >> drive & 1 == 1;
    let changes = view.events.iter().enumerate();
    spans(false, changes.map(|(column, event)| (column, is_off(event.after.off))))
}

/// The spans of a state that is `first` until it changes.
fn spans<T: Copy + PartialEq>(first: T, changes: impl Iterator<Item = (usize, T)>) -> Vec<Span<T>> {
    let mut spans = Vec::new();
    let mut last = Span { from: None, to: None, state: first };
    for (column, state) in changes {
        if state != last.state {
            spans.push(Span { to: Some(column), ..last });
            last = Span { from: Some(column), to: None, state };
        }
    }
    spans.push(last);
    spans
}
