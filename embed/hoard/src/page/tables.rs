//! The records that a call concerns, as tables of their cells before it and after.

use register::{Block, Server};

use crate::run::{Event, Places};
use crate::scenario::{command_words, Sizes};

/// A record before and after a call.
pub struct Table {
    /// Its name.
    pub name: String,
    /// Its slot, where the call names none and has a table for each.
    pub slot: Option<u32>,
    /// The name of each cell, and what it held before and after.
    pub rows: Vec<Row>,
}

/// The name of a cell, and what it held before and after.
type Row = (&'static str, String, String);

/// The records that a call concerns; of one that names no slot, those in these slots.
pub fn tables(event: &Event, sizes: Sizes, slots: &[u32]) -> Vec<Table> {
    if event.server().is_none() {
        return vec![drives(event, sizes)];
    }
    server_tables(event, sizes, slots).into_iter().chain(block_table(event)).collect()
}

/// Which drives are off.
fn drives(event: &Event, sizes: Sizes) -> Table {
    let [before, after] = [&event.before, &event.after].map(|seen| drive_marks(seen.off, sizes));
    let rows = vec![("off", before, after)];
    Table { name: "drives".to_string(), slot: None, rows }
}

/// The records of the server that makes the call, in these slots.
fn server_tables(event: &Event, sizes: Sizes, slots: &[u32]) -> Vec<Table> {
    let Places { server, slot: named, .. } = event.places();
    let pairs = event.before.servers.iter().zip(&event.after.servers);
    let pairs = pairs.filter(|((slot, _), _)| slots.contains(slot));
    let tables = pairs.map(|((slot, before), (_, after))| Table {
        name: format!("server {} in slot {slot}", server.unwrap_or(0)),
        slot: named.is_none().then_some(*slot),
        rows: rows(server_cells(before, sizes), server_cells(after, sizes)),
    });
    tables.collect()
}

/// The block that a call concerns.
fn block_table(event: &Event) -> Option<Table> {
    let (before, after) = (event.before.block?, event.after.block?);
    let (owner, drive) = (event.owner()?, event.drive()?);
    let name = format!("block of server {owner} on drive {drive} in slot {}", event.slot()?);
    Some(Table { name, slot: None, rows: rows(block_cells(&before), block_cells(&after)) })
}

/// The cells of a record before and after.
fn rows<const COUNT: usize>(
    before: [(&'static str, String); COUNT],
    after: [(&'static str, String); COUNT],
) -> Vec<Row> {
    let pairs = before.into_iter().zip(after);
    pairs.map(|((name, before), (_, after))| (name, before, after)).collect()
}

/// The cells of a server's record in words.
fn server_cells(server: &Server, sizes: Sizes) -> [(&'static str, String); 11] {
    [
        ("phase", server.phase.to_string()),
        ("mbal", server.own.mbal.to_string()),
        ("bal", server.own.bal.to_string()),
        ("inp", command(server.own.inp)),
        ("offer", command(server.offer)),
        ("top", server.top.to_string()),
        ("seenbal", server.seenbal.to_string()),
        ("seeninp", command(server.seeninp)),
        ("written", drive_marks(server.written, sizes)),
        ("read", read_marks(server.read, sizes)),
        ("agreed", command(server.agreed)),
    ]
}

/// The cells of a block in words.
fn block_cells(block: &Block) -> [(&'static str, String); 4] {
    [
        ("mbal", block.mbal.to_string()),
        ("bal", block.bal.to_string()),
        ("inp", command(block.inp)),
        ("done", command(block.done)),
    ]
}

/// A command in words, or that there is none.
fn command(number: u32) -> String {
    if number == 0 {
        "none".to_string()
    } else {
        command_words(number)
    }
}

/// The drives that are marked.
fn drive_marks(marks: u32, sizes: Sizes) -> String {
    let drives = (0..sizes.drives).filter(|drive| marks >> drive & 1 == 1);
    listed(drives.map(|drive| format!("drive {drive}")))
}

/// The blocks that are marked as read.
fn read_marks(marks: u32, sizes: Sizes) -> String {
    let places = (0..sizes.drives)
        .flat_map(|drive| (0..sizes.servers).map(move |server| (drive, server)))
        .filter(|(drive, server)| marks >> (4 * drive + server) & 1 == 1);
    listed(places.map(|(drive, server)| format!("drive {drive} of {server}")))
}

/// What is marked, with commas between.
fn listed(marked: impl Iterator<Item = String>) -> String {
    let marked: Vec<String> = marked.collect();
    if marked.is_empty() {
        "none".to_string()
    } else {
        marked.join(", ")
    }
}
