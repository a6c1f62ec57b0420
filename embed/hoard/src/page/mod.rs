//! A run as a page for a browser, or as a picture.
//!
//! - `view`: what one picture shows.
//! - `geometry`: where everything stands.
//! - `names`: the names of the lanes.
//! - `spans`: what lasts for some columns.
//! - `bars`: what lasts, as bars in the lanes.
//! - `labels`: what is written about a call.
//! - `marks`: the marks of a call.
//! - `strip`: the columns that stand side by side.
//! - `svg`: the elements of a picture.
//! - `tables`: the records that a call concerns, as tables.
//! - `facts`: what the page's script knows of each call.
//! - `html`: what stands around the pictures.
//! - `picture.css`, `page.css`, `legend.html`, `page.js`: how it looks, and what it does.

mod bars;
mod facts;
mod geometry;
mod html;
mod labels;
mod marks;
mod names;
mod spans;
mod strip;
mod svg;
mod tables;
mod view;

use crate::run::Run;

use bars::{bars, Bar};
use geometry::{Geometry, NAMES, SHEET};
use marks::marks;
use names::names;
use strip::{strips, Strip};
use view::{all, View};

pub use html::page;

/// How a picture looks.
const STYLE: &str = include_str!("picture.css");

/// The picture of all slots, as SVG. `progress` is told how many calls were drawn, and of how many.
pub fn picture(run: &Run, mut progress: impl FnMut(usize, usize)) -> String {
    let view = all(run);
    let drawing = Drawing { titled: true, ..Drawing::of(&view) };
    let (strips, height) = (strips(&view), drawing.places.height());
    let width = NAMES + strips.iter().map(|strip| strip.width()).max().unwrap_or(0);
    let whole = height * strips.len() as i32;
    let mut picture = format!(
        "<svg xmlns=\"http://www.w3.org/2000/svg\" class=\"picture\" \
         viewBox=\"0 0 {width} {whole}\" width=\"{width}\" height=\"{whole}\">\n\
         <style>\n{STYLE}</style>\n\
         <rect class=\"paper\" width=\"{width}\" height=\"{whole}\"/>\n"
    );
    for (place, &strip) in strips.iter().enumerate() {
        progress(strip.first, view.events.len());
        let top = place as i32 * height;
        let (names, columns) = (names(&view, &drawing.places), drawing.columns(strip));
        picture += &format!("<g transform=\"translate(0 {top})\">{names}</g>\n");
        picture += &format!("<g transform=\"translate({NAMES} {top})\">{columns}</g>\n");
    }
    picture + "</svg>\n"
}

/// What is needed to draw the strips of a view.
struct Drawing<'a> {
    view: &'a View<'a>,
    places: Geometry,
    bars: Vec<Bar>,
    /// The places of the bars of each strip.
    lasting: Vec<Vec<usize>>,
    /// Whether each call has a title. In the page the script shows more.
    titled: bool,
}

impl Drawing<'_> {
    /// That of a view.
    fn of<'a>(view: &'a View) -> Drawing<'a> {
        let places = Geometry::of(view);
        let bars = bars(view, &places);
        let lasting = by_strip(&bars, strips(view).len());
        Drawing { view, places, bars, lasting, titled: false }
    }

    /// The lanes of a strip, and its calls.
    fn columns(&self, strip: Strip) -> String {
        let bars = self.lasting[strip.first / SHEET].iter();
        let bars: String = bars.map(|&place| strip.bar(&self.bars[place])).collect();
        let events = self.view.events.iter().enumerate().skip(strip.first).take(strip.columns);
        let calls = events.map(|(column, event)| {
            marks(self.view, &self.places, event, strip.left(column), self.titled) + "\n"
        });
        strip.ground(self.view, &self.places) + &bars + "\n" + &calls.collect::<String>()
    }
}

/// The places of the bars that last in each of so many strips.
fn by_strip(bars: &[Bar], strips: usize) -> Vec<Vec<usize>> {
    let mut lasting = vec![Vec::new(); strips];
    for (place, bar) in bars.iter().enumerate() {
        let first = bar.from.unwrap_or(0) / SHEET;
        let last = bar.to.map_or(strips - 1, |to| to / SHEET);
        lasting[first..=last].iter_mut().for_each(|strip| strip.push(place));
    }
    lasting
}
