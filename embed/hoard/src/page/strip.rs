//! A strip: columns of a picture that stand side by side.

use super::bars::Bar;
use super::geometry::{Geometry, ARROW, BLOCK, COLUMN, SHEET};
use super::svg::{figure, rect, text, text_width, upright};
use super::view::View;

/// Columns of a picture that stand side by side.
#[derive(Clone, Copy, Debug, PartialEq, Eq)]
pub struct Strip {
    /// The first column.
    pub first: usize,
    /// How many there are.
    pub columns: usize,
}

/// The strips of a picture: as many columns as a sheet of paper has in each.
pub fn strips(view: &View) -> Vec<Strip> {
    let count = view.events.len();
    let firsts = (0..count.max(1)).step_by(SHEET);
    firsts.map(|first| Strip { first, columns: SHEET.min(count.saturating_sub(first)) }).collect()
}

impl Strip {
    /// Its width in pixels.
    pub fn width(self) -> i32 {
        self.columns as i32 * COLUMN
    }

    /// The left edge of a column.
    pub fn left(self, column: usize) -> i32 {
        (column as i32 - self.first as i32) * COLUMN
    }

    /// The lanes of the drives, with a line below each block's row.
    pub fn ground(self, view: &View, places: &Geometry) -> String {
        let width = self.width();
        let lanes = (0..view.sizes.drives)
            .map(|drive| rect("drive", 0, places.drive(drive), width, places.drive_height()));
        let blocks = (0..view.sizes.drives)
            .flat_map(|drive| (0..view.sizes.servers).map(move |server| (drive, server)));
        let lines = blocks.filter_map(|(drive, server)| {
            let top = places.block(drive, server)?;
            Some(figure("line", 0, top + BLOCK, &format!("h{width}")))
        });
        lanes.chain(lines).collect()
    }

    /// The part of a bar in this strip: with an edge where it begins, and with the longest of its
    /// texts that fits. What goes on from the strip before says again what it is.
    pub fn bar(self, bar: &Bar) -> String {
        let edge = |column: usize| self.left(column) + ARROW;
        let (from, to) = (bar.from.map_or(0, edge), bar.to.map_or(self.width(), edge));
        let (left, right) = (from.max(0), to.min(self.width()));
        if left >= right {
            return String::new();
        }
        // What stood at the beginning begins in the first strip.
        let begins = from > 0 || bar.from.is_none() && self.first == 0;
        let &Bar { top, height, indent, baseline, .. } = bar;
        let mut drawn = rect(&bar.class, left, top, right - left, height);
        if begins {
            drawn += &upright("edge", left, top, top + height);
        }
        let x = left + indent;
        let fits = bar.words.iter().find(|words| x + text_width(words) <= right - 2);
        let words = fits.map(|words| text(bar.text, x, baseline, words));
        drawn + &words.unwrap_or_default()
    }
}
