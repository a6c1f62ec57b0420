//! What one picture shows: all slots that a run is about, or one of them.

use std::collections::BTreeSet;

use crate::run::{Event, Run};
use crate::scenario::Sizes;

/// The slots of a picture, and the calls that concern them, a column for each.
pub struct View<'a> {
    /// Its name.
    pub name: String,
    /// The sizes of the room.
    pub sizes: Sizes,
    /// The slots that have a row in each server's lane.
    pub slots: Vec<u32>,
    /// The calls, in their order.
    pub events: Vec<&'a Event>,
}

/// The pictures of a run: first that of all slots, then one for each slot that it is about,
/// where these are several.
pub fn views(run: &Run) -> Vec<View<'_>> {
    let slots = slots(run);
    let all = whole(run, &slots);
    let single = slots.iter().map(|&slot| View {
        name: format!("slot {slot}"),
        sizes: run.sizes,
        slots: vec![slot],
        events: run.events.iter().filter(|event| concerns(event, slot)).collect(),
    });
    let several = slots.len() > 1;
    std::iter::once(all).chain(single.filter(|_| several)).collect()
}

/// The picture of all slots.
pub fn all(run: &Run) -> View<'_> {
    whole(run, &slots(run))
}

/// The slots of the room that a run is about. One that is about none has a row for slot 0.
pub fn slots(run: &Run) -> Vec<u32> {
    let slots = run.events.iter().filter_map(Event::slot).filter(|&slot| slot < run.sizes.slots);
    let slots: BTreeSet<u32> = slots.collect();
    if slots.is_empty() {
        return vec![0];
    }
    slots.into_iter().collect()
}

/// The picture with these slots and every call.
fn whole<'a>(run: &'a Run, slots: &[u32]) -> View<'a> {
    let name = match slots {
        [slot] => format!("slot {slot}"),
        _ => "all slots".to_string(),
    };
    View { name, sizes: run.sizes, slots: slots.to_vec(), events: run.events.iter().collect() }
}

/// Whether a call is about a slot: about this one, or about all.
fn concerns(event: &Event, slot: u32) -> bool {
    match event.slot() {
        Some(own) => own == slot,
        None => event.is_about_all(),
    }
}
