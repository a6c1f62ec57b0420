//! The marks of one call in its column.

use register::{Answer, Step};

use super::geometry::{Geometry, ARROW, COLUMN, TEXTS};
use super::labels::{label, name};
use super::svg::{arrow, circle, escaped, figure, rect, text, upright, upwards};
use super::view::View;
use crate::run::{answer, Event, Reply};
use crate::scenario::Call;

/// A call in the column that begins at `left`: its mark, its arrow and its texts, and a title
/// where it is to have one.
pub fn marks(view: &View, places: &Geometry, event: &Event, left: i32, titled: bool) -> String {
    let about = format!("{}. {}: {}", event.number, event.call, answer(event, view.sizes));
    let about = escaped(&about);
    // Writes can be chosen.
    let role = if event.wrote() { "button" } else { "img" };
    let mut group = format!(
        "<g class=\"event {} {}\" data-n=\"{}\" tabindex=\"0\" role=\"{role}\" aria-label=\"{}\">",
        name(event.call),
        outcome(event),
        event.number,
        about
    );
    if titled {
        group += &format!("<title>{about}</title>");
    }
    // The whole column answers to the pointer.
    group += &rect("hit", left, 0, COLUMN, places.height());
    group += &text("number", left + 2, 13, &event.number.to_string());
    group += &shape(places, event, left + ARROW);
    group += &texts(view, places, event, left);
    group + "</g>"
}

/// How a call went.
pub fn outcome(event: &Event) -> &'static str {
    match event.reply {
        Reply::Refused(_) => "refused",
        Reply::Answer(Answer::Outbid(_)) => "outbid",
        Reply::Answer(Answer::Chosen(_)) => "chosen",
        Reply::Answer(Answer::Committed(_)) => "committed",
        Reply::Answer(_) | Reply::Slot(_) => "done",
    }
}

/// The two lines about a call, in the space between the servers and the drives.
fn texts(view: &View, places: &Geometry, event: &Event, left: i32) -> String {
    let (first, second) = label(event, view.sizes);
    let (bottom, most) = (places.texts() + TEXTS - 8, TEXTS - 14);
    upwards("first", left + ARROW + 12, bottom, &first, most)
        + &upwards("second", left + ARROW + 23, bottom, &second, most)
}

/// Where a mark stands in a slot's row: below what is written there.
const ROW_MARK: i32 = 20;
/// Where a mark stands in a block's row.
const BLOCK_MARK: i32 = 16;

/// The mark of a call, and the arrow of one that writes or reads.
fn shape(places: &Geometry, event: &Event, x: i32) -> String {
    // A call that names no row of the picture has its mark above the texts.
    let row = event.server().zip(event.slot());
    let row = row.and_then(|(server, slot)| places.row(server, slot));
    let at = row.map_or(places.texts() + 4, |row| row + ROW_MARK);
    let block = event.drive().zip(event.owner());
    let block = block.and_then(|(drive, owner)| Some(places.block(drive, owner)? + BLOCK_MARK));
    match (event.call, block) {
        (Call::Step(Step::DriveOff { .. } | Step::DriveOn { .. }), _) => switch(places, event, x),
        (Call::Step(Step::Fail { .. }), _) => failure(places, event, x),
        (_, Some(block)) if event.refused().is_some() => {
            upright("shaft", x, at, block) + &cross("bad", x, at)
        }
        (_, Some(block)) if event.wrote() => {
            circle("end", x, at, 3) + &arrow(x, at, block - 5) + &square(x, block)
        }
        (_, Some(block)) => {
            circle("met", x, block, 4) + &arrow(x, block - 4, at) + &flag(event, x, at)
        }
        _ if event.refused().is_some() => cross("bad", x, at),
        _ => figure("mark", x, at - 6, "l6 6l-6 6l-6 -6z") + &flag(event, x, at),
    }
}

/// The flag of a settled command.
fn flag(event: &Event, x: i32, y: i32) -> String {
    if outcome(event) == "committed" {
        figure("flag", x, y + 11, "v-24l15 5l-15 6")
    } else {
        String::new()
    }
}

/// A written block.
fn square(x: i32, y: i32) -> String {
    rect("wrote", x - 5, y - 5, 10, 10)
}

/// A cross.
fn cross(class: &str, x: i32, y: i32) -> String {
    figure(class, x - 5, y - 5, "l10 10m0 -10l-10 10")
}

/// A drive that goes off or on.
fn switch(places: &Geometry, event: &Event, x: i32) -> String {
    let drive = event.drive().filter(|&drive| places.block(drive, 0).is_some());
    let (top, height) =
        drive.map_or((places.texts(), 8), |drive| (places.drive(drive), places.drive_height()));
    let bar = upright("bar", x, top, top + height);
    if event.refused().is_some() {
        bar + &cross("bad", x, top + height / 2)
    } else {
        bar
    }
}

/// A server that fails, in all its rows.
fn failure(places: &Geometry, event: &Event, x: i32) -> String {
    let server = event.server().filter(|_| event.refused().is_none());
    let Some(server) = server else { return cross("bad", x, places.texts() + 4) };
    let (top, height) = (places.server(server), places.server_height());
    upright("bar", x, top, top + height) + &cross("fails", x, top + height / 2)
}
