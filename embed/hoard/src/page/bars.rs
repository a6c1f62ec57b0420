//! What lasts in the lanes, as bars: the phases of the servers, what the blocks hold, and when a
//! drive is off.

use register::Block;

use super::geometry::{Geometry, BLOCK, ROW};
use super::spans::{bands, contents, off, Band, Span};
use super::view::View;
use crate::run::{ballots, block_words, settled};
use crate::scenario::command_words;

/// A bar in a lane.
pub struct Bar {
    /// The column of the call that begins it, none where it stood at the beginning.
    pub from: Option<usize>,
    /// The column of the call that ends it, none where it lasts to the end.
    pub to: Option<usize>,
    /// How it looks.
    pub class: String,
    /// Its top.
    pub top: i32,
    /// Its height.
    pub height: i32,
    /// How its text looks.
    pub text: &'static str,
    /// How far from its left edge the text begins.
    pub indent: i32,
    /// The line on which the text stands.
    pub baseline: i32,
    /// The texts, the longest first, of which one is to fit.
    pub words: Vec<String>,
}

/// Every bar of a picture. A later one covers an earlier one.
pub fn bars(view: &View, places: &Geometry) -> Vec<Bar> {
    let mut bars: Vec<Bar> =
        (0..view.sizes.servers).flat_map(|server| phases(view, places, server)).collect();
    bars.extend((0..view.sizes.drives).flat_map(|drive| blocks(view, places, drive)));
    bars.extend((0..view.sizes.drives).flat_map(|drive| shades(view, places, drive)));
    bars
}

/// The phases of a server, in each slot.
fn phases(view: &View, places: &Geometry, server: u32) -> Vec<Bar> {
    let rows = view.slots.iter().filter_map(|&slot| Some((slot, places.row(server, slot)?)));
    let bars = rows.flat_map(|(slot, top)| {
        bands(view, server, slot).into_iter().map(move |span| phase(top, &span))
    });
    bars.collect()
}

/// One phase, with its ballot, or with the command that was settled.
fn phase(top: i32, span: &Span<Band>) -> Bar {
    let Band { phase, mbal, agreed } = span.state;
    let words = match (phase, agreed) {
        (0, _) => vec!["phase 0".to_string(), "0".to_string()],
        (3, 1..) => vec![command_words(agreed), "settled".to_string(), "3".to_string()],
        _ => vec![
            format!("phase {phase}, ballot {mbal}"),
            format!("{phase}: {mbal}"),
            phase.to_string(),
        ],
    };
    Bar {
        from: span.from,
        to: span.to,
        class: format!("phase p{phase}"),
        top: top + 1,
        height: ROW - 2,
        text: "band",
        // Beside the flag that begins phase 3.
        indent: if phase == 3 { 17 } else { 3 },
        baseline: top + 11,
        words,
    }
}

/// What the blocks of a drive hold, where the picture is that of one slot.
fn blocks(view: &View, places: &Geometry, drive: u32) -> Vec<Bar> {
    let [slot] = view.slots[..] else { return Vec::new() };
    let rows =
        (0..view.sizes.servers).filter_map(|server| Some((server, places.block(drive, server)?)));
    let bars = rows.flat_map(|(server, top)| {
        let spans = contents(view, server, drive, slot).into_iter();
        spans.filter_map(move |span| Some(held(top, &span, &span.state?)))
    });
    bars.collect()
}

/// What one block holds.
fn held(top: i32, span: &Span<Option<Block>>, block: &Block) -> Bar {
    Bar {
        from: span.from,
        to: span.to,
        class: if block.done == 0 { "held" } else { "held done" }.to_string(),
        top: top + 1,
        height: BLOCK - 2,
        text: "block",
        indent: 7,
        baseline: top + 9,
        words: block_texts(block),
    }
}

/// What is written about a block, the longest text first. One that tells what was settled says that
/// before its ballots.
fn block_texts(block: &Block) -> Vec<String> {
    let done = (block.done != 0).then(|| settled(block.done));
    let texts = [Some(block_words(block)), done, Some(ballots(block))];
    let short = format!("{}, {}", block.mbal, block.bal);
    texts.into_iter().flatten().chain([short]).collect()
}

/// When a drive is off.
fn shades(view: &View, places: &Geometry, drive: u32) -> Vec<Bar> {
    let (top, height) = (places.drive(drive), places.drive_height());
    let spans = off(view, drive).into_iter().filter(|span| span.state);
    let bars = spans.map(|span| Bar {
        from: span.from,
        to: span.to,
        class: "shade".to_string(),
        top,
        height,
        text: "off",
        indent: 6,
        baseline: top + height / 2 + 4,
        words: vec!["off".to_string()],
    });
    bars.collect()
}
