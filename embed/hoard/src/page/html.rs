//! The page: the pictures of a run, and what stands around them.

use super::facts::facts;
use super::geometry::NAMES;
use super::names::names;
use super::strip::strips;
use super::svg::escaped;
use super::view::{views, View};
use super::{Drawing, STYLE};
use crate::run::{counts, entries, hoard_words, Run};

/// How the page looks around the pictures.
const PAGE_STYLE: &str = include_str!("page.css");
/// What the page does.
const SCRIPT: &str = include_str!("page.js");
/// What the colours and the marks mean, and where the script says and shows something.
const LEGEND: &str = include_str!("legend.html");

/// The height from which the picture of all slots is too small on a sheet of paper, where each slot
/// is printed by itself instead.
const TALL: i32 = 900;

/// The page of a run. `progress` is told how many calls were drawn, and of how many: a call is
/// drawn in the picture of all slots and in that of its own.
pub fn page(run: &Run, title: &str, mut progress: impl FnMut(usize, usize)) -> String {
    let views = views(run);
    let total = views.iter().map(|view| view.events.len()).sum();
    let mut drawn = 0;
    let mut pictures = String::new();
    for (place, view) in views.iter().enumerate() {
        pictures += &section(view, place, |calls| progress(drawn + calls, total));
        drawn += view.events.len();
    }
    let title = escaped(title);
    format!(
        "<!DOCTYPE html>\n<html lang=\"en\">\n<head>\n<meta charset=\"utf-8\">\n\
         <meta name=\"viewport\" content=\"width=device-width, initial-scale=1\">\n\
         <title>{title}</title>\n<style>\n{STYLE}{PAGE_STYLE}</style>\n</head>\n<body>\n\
         <h1>{title}</h1>\n<p>{}: {}.</p>\n{}{}{LEGEND}{pictures}{}\
         <script type=\"application/json\" id=\"facts\">{}</script>\n\
         <script type=\"module\">\n{SCRIPT}</script>\n</body>\n</html>\n",
        escaped(run.opening.trim_end()).replace('\n', ", "),
        run.summary(),
        open(run),
        choice(&views),
        catalogues(run),
        facts(run)
    )
}

/// The settles that settled nothing. One that took no step has no column.
fn open(run: &Run) -> String {
    let settles = run.open.iter().map(|settle| format!("<li>{}</li>\n", escaped(settle)));
    let settles: String = settles.collect();
    if settles.is_empty() {
        return settles;
    }
    format!("<p>These settled nothing:</p>\n<ul class=\"open\">\n{settles}</ul>\n")
}

/// What chooses a picture.
fn choice(views: &[View]) -> String {
    let choices = views.iter().enumerate().map(|(place, view)| {
        let (name, checked) = (&view.name, if place == 0 { " checked" } else { "" });
        format!(
            "<label><input type=\"radio\" name=\"view\" value=\"{place}\"{checked}> {name}\
             </label>\n"
        )
    });
    format!(
        "<form class=\"choice\">\n{}<label><input type=\"checkbox\" id=\"rows\"> one below the other</label>\n\
         </form>\n",
        choices.collect::<String>()
    )
}

/// The picture of a view: strips that stand side by side, or one below the other.
fn section(view: &View, place: usize, mut progress: impl FnMut(usize)) -> String {
    let drawing = Drawing::of(view);
    let (names, height) = (names(view, &drawing.places), drawing.places.height());
    let mut pictures = String::new();
    for strip in strips(view) {
        progress(strip.first);
        pictures += "<div class=\"strip\">";
        pictures += &svg("names", "xMaxYMin", NAMES, height, &names);
        pictures += &svg("steps", "xMinYMin", strip.width(), height, &drawing.columns(strip));
        pictures += "</div>\n";
    }
    let (name, hidden) = (&view.name, if place == 0 { "" } else { " hidden" });
    let tall = if view.slots.len() > 1 && height > TALL { " tall" } else { "" };
    let slots: Vec<String> = view.slots.iter().map(u32::to_string).collect();
    format!(
        "<section class=\"view{tall}\" aria-label=\"{name}\" data-slots=\"{}\"{hidden}>\n\
         <h2>{name}</h2>\n<div class=\"run\">\n{pictures}</div>\n</section>\n",
        slots.join(" ")
    )
}

/// A picture in the page. Where it is made smaller it stays at this edge.
fn svg(class: &str, edge: &str, width: i32, height: i32, content: &str) -> String {
    format!(
        "<svg class=\"picture {class}\" preserveAspectRatio=\"{edge}\" width=\"{width}\" \
         height=\"{height}\" viewBox=\"0 0 {width} {height}\">{content}</svg>"
    )
}

/// The catalogues at the end.
fn catalogues(run: &Run) -> String {
    let tables = run.catalogues.iter().enumerate().map(|(server, catalogue)| {
        let counts = counts(server as u32, catalogue);
        let rows = entries(catalogue).into_iter().map(|(piece, hoard)| {
            format!("<tr><td>{piece}</td><td>{}</td></tr>", hoard_words(hoard))
        });
        let rows: String = rows.collect();
        let none = "<tr><td colspan=\"2\">no piece</td></tr>".to_string();
        let rows = if rows.is_empty() { none } else { rows };
        format!(
            "<table class=\"catalogue\"><caption>{counts}</caption>\
             <tr><th>piece</th><th>hoard</th></tr>{rows}</table>\n"
        )
    });
    format!("<div class=\"catalogues\">\n{}</div>\n", tables.collect::<String>())
}
