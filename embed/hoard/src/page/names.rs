//! The names of the lanes, and of the rows in them.

use super::geometry::{Geometry, NAMES};
use super::svg::text;
use super::view::View;

/// The names beside a picture.
pub fn names(view: &View, places: &Geometry) -> String {
    let servers = (0..view.sizes.servers).map(|server| {
        let name = format!("server {server}");
        text("lane", 4, places.server(server) + 19, &name) + &slots(view, places, server)
    });
    let drives = (0..view.sizes.drives).map(|drive| {
        let name = format!("drive {drive}");
        text("lane", 4, places.drive(drive) + 15, &name) + &blocks(view, places, drive)
    });
    servers.chain(drives).collect()
}

/// The names of the slots in a server's lane, where there are several.
fn slots(view: &View, places: &Geometry, server: u32) -> String {
    let slots = view.slots.iter().filter(|_| view.slots.len() > 1);
    let named = slots.filter_map(|&slot| {
        let top = places.row(server, slot)?;
        Some(text("row slot", NAMES - 4, top + 19, &format!("slot {slot}")))
    });
    named.collect()
}

/// The names of the blocks in a drive's lane.
fn blocks(view: &View, places: &Geometry, drive: u32) -> String {
    let named = (0..view.sizes.servers).filter_map(|server| {
        let top = places.block(drive, server)?;
        Some(text("row", NAMES - 4, top + 15, &format!("of {server}")))
    });
    named.collect()
}
