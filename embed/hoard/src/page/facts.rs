//! What the page's script knows of each call, as JSON.

use register::Step;

use super::tables::{tables, Table};
use super::view::slots;
use crate::run::{answer, block_words, found, Event, Run};
use crate::scenario::{Call, Sizes};

/// The facts of every call of a run.
pub fn facts(run: &Run) -> String {
    let slots = slots(run);
    let facts = run.events.iter().map(|event| fact(event, run.sizes, &slots));
    format!("[{}]", facts.collect::<Vec<_>>().join(",\n"))
}

/// The facts of one call.
fn fact(event: &Event, sizes: Sizes, slots: &[u32]) -> String {
    let tables: Vec<String> = tables(event, sizes, slots).iter().map(table).collect();
    format!(
        "{{\"n\":{},\"line\":{},\"call\":{},\"answer\":{},\"tables\":[{}]{}}}",
        event.number,
        event.line,
        string(&event.call.to_string()),
        string(&answer(event, sizes)),
        tables.join(","),
        there(event).unwrap_or_default()
    )
}

/// What a call read or wrote on a drive.
fn there(event: &Event) -> Option<String> {
    let words = block_words(&found(event)?);
    let server = event.server()?;
    let says = match event.call {
        Call::Step(Step::Write { .. }) => format!("server {server} wrote {words}"),
        Call::Step(Step::Recall { .. }) => {
            format!("server {server} recalled its own block and found {words}")
        }
        _ => {
            format!("server {server} read the block of server {} and found {words}", event.owner()?)
        }
    };
    Some(format!(
        ",\"drive\":{},\"slot\":{},\"wrote\":{},\"says\":{}",
        event.drive()?,
        event.slot()?,
        event.wrote(),
        string(&says)
    ))
}

/// A table of cells.
fn table(table: &Table) -> String {
    let rows = table.rows.iter().map(|(name, before, after)| {
        format!("[{},{},{}]", string(name), string(before), string(after))
    });
    let rows = rows.collect::<Vec<_>>().join(",");
    let slot = table.slot.map_or(String::new(), |slot| format!("\"slot\":{slot},"));
    format!("{{\"name\":{},{slot}\"rows\":[{rows}]}}", string(&table.name))
}

/// A text as JSON. `<` is written by its number, since it may not end the script element.
fn string(text: &str) -> String {
    let mut out = String::from("\"");
    for letter in text.chars() {
        match letter {
            '"' | '\\' => out.extend(['\\', letter]),
            '<' | '\0'..='\x1f' => out += &format!("\\u{:04x}", letter as u32),
            _ => out.push(letter),
        }
    }
    out + "\""
}
