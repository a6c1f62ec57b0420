//! Where everything stands in a picture, in pixels.

use super::view::View;

/// The width of a column. Each call has one.
pub const COLUMN: i32 = 36;
/// Where a call's arrow stands in its column.
pub const ARROW: i32 = 8;
/// The width of the names of the lanes.
pub const NAMES: i32 = 92;
/// How many columns stand side by side on a sheet of paper.
pub const SHEET: usize = 26;
/// The height of the numbers of the calls.
const HEAD: i32 = 20;
/// The height of what is written about the calls, between the servers and the drives.
pub const TEXTS: i32 = 172;
/// The height of a slot's row in a server's lane.
pub const ROW: i32 = 31;
/// The height of a block's row.
pub const BLOCK: i32 = 23;
/// The space between two lanes.
const GAP: i32 = 8;

/// The places of a picture.
pub struct Geometry {
    servers: i32,
    drives: i32,
    slots: Vec<u32>,
}

impl Geometry {
    /// Those of a view.
    pub fn of(view: &View) -> Geometry {
        let (servers, drives) = (view.sizes.servers as i32, view.sizes.drives as i32);
        Geometry { servers, drives, slots: view.slots.clone() }
    }

    /// The height of a server's lane.
    pub fn server_height(&self) -> i32 {
        ROW * self.slots.len() as i32
    }

    /// The top of a server's lane.
    pub fn server(&self, server: u32) -> i32 {
        HEAD + server as i32 * (self.server_height() + GAP)
    }

    /// The top of a slot's row in a server's lane, none where there is no such row.
    pub fn row(&self, server: u32, slot: u32) -> Option<i32> {
        let place = self.slots.iter().position(|&own| own == slot)? as i32;
        ((server as i32) < self.servers).then(|| self.server(server) + place * ROW)
    }

    /// The top of the texts.
    pub fn texts(&self) -> i32 {
        self.server(self.servers as u32)
    }

    /// The height of a drive's lane.
    pub fn drive_height(&self) -> i32 {
        self.servers * BLOCK
    }

    /// The top of a drive's lane.
    pub fn drive(&self, drive: u32) -> i32 {
        self.texts() + TEXTS + drive as i32 * (self.drive_height() + GAP)
    }

    /// The top of a block's row in a drive's lane, none where there is no such row.
    pub fn block(&self, drive: u32, server: u32) -> Option<i32> {
        let there = (drive as i32) < self.drives && (server as i32) < self.servers;
        there.then(|| self.drive(drive) + server as i32 * BLOCK)
    }

    /// The height of the picture.
    pub fn height(&self) -> i32 {
        self.drive(self.drives as u32)
    }
}
