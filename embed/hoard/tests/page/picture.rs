//! The picture by itself: the one of the README is what the program draws, and a browser shows it.

use std::fs;
use std::path::{Path, PathBuf};

use other::Sizes;

use crate::browser::Browser;
use crate::common::folder::Folder;
use crate::common::program::done;
use crate::runs::run;

/// A file of the repository.
fn file(path: &str) -> PathBuf {
    Path::new(env!("CARGO_MANIFEST_DIR")).join("../..").join(path)
}

/// The scenario that is drawn.
fn collision() -> String {
    file("examples/collision.txt").to_str().expect("a path").to_string()
}

/// A call as a line of `hoard run` has it, in the words of a title.
fn title(line: &str) -> String {
    let (call, answer) = line.split_at(52);
    let (number, call) = call.trim_start().split_once(' ').expect("a number and a call");
    format!("{number}. {}: {answer}", call.trim())
}

#[test]
fn the_picture_of_the_readme_is_drawn_by_the_program() {
    let drawn = done(&["show", "--svg", &collision()], b"");
    let picture = fs::read(file("docs/collision.svg")).expect("docs/collision.svg is there");
    assert!(drawn == picture, "docs/collision.svg is out of date: write it anew by ./hoard show examples/collision.txt --svg -o docs/collision.svg");
    let readme = fs::read_to_string(file("README.md")).expect("the README is there");
    assert!(readme.contains("](docs/collision.svg)"), "the README shows the picture");
}

#[test]
fn a_browser_shows_the_picture() {
    let mut browser = Browser::open(&file("docs/collision.svg"));
    assert_eq!(browser.value("document.documentElement.tagName"), "svg");
    let calls = browser.value("document.querySelectorAll('.event').length");
    let text = fs::read_to_string(collision()).expect("the example is there");
    let lines = text.lines().filter(|line| !line.starts_with('#') && !line.trim().is_empty());
    // The first line opens the room.
    assert_eq!(calls, (lines.count() - 1).to_string());
    let titles =
        "[...document.querySelectorAll('.event > title')].map(e => e.textContent).join('\\n')";
    let run = String::from_utf8(done(&["run", &collision()], b"")).expect("a run is text");
    // Each title is the call with its answer, as the run has them before the catalogues.
    let run = run.split("\n\n").next().unwrap_or_default();
    let lines =
        run.lines().filter(|line| line.trim_start().starts_with(|c: char| c.is_ascii_digit()));
    let expected: Vec<String> = lines.map(title).collect();
    assert_eq!(browser.value(titles), expected.join("\n"));
    let inside = "[...document.querySelectorAll('.event')].every(event => { \
                  const box = event.getBoundingClientRect(), all = document.documentElement.getBoundingClientRect(); \
                  return box.right <= all.right + 1 && box.bottom <= all.bottom + 1 && box.width > 20; })";
    assert_eq!(browser.value(inside), "true");
    assert_eq!(browser.requests().len(), 1);
    assert_eq!(browser.errors(), Vec::<String>::new());
}

/// A longer run has strips one below the other, all inside the picture, and none over another.
#[test]
fn the_strips_stand_one_below_the_other() {
    let play = run(3, 1, Sizes { servers: 2, drives: 2, slots: 2 }, 70);
    let folder = Folder::new("strips");
    let (scenario, picture) = (folder.with("run.txt", &play.text), folder.file("run.svg"));
    done(&["show", &scenario, "--svg", "-o", &picture], b"");
    let mut browser = Browser::open(Path::new(&picture));
    let places = "(() => { const root = document.documentElement; \
                  const whole = root.getBoundingClientRect(), box = root.viewBox.baseVal; \
                  const fits = box.width === root.width.baseVal.value && box.height === root.height.baseVal.value; \
                  return fits + ';' + [...document.querySelectorAll('.event .hit')].map(hit => { \
                  const box = hit.getBoundingClientRect(); \
                  return [box.left - whole.left, box.top - whole.top, box.height, \
                  whole.width - box.right + whole.left, whole.height - box.bottom + whole.top].map(Math.round).join(' ');\
                  }).join(';'); })()";
    let seen = browser.value(places);
    let mut seen = seen.split(';');
    assert_eq!(seen.next(), Some("true"));
    let places: Vec<Vec<i32>> = seen
        .map(|place| place.split(' ').map(|number| number.parse().expect("a number")).collect())
        .collect();
    assert_eq!(places.len(), play.made().count());
    for (number, place) in places.iter().enumerate() {
        let [left, top, height, right, bottom] = place[..] else { panic!("{place:?}") };
        assert!(right >= 0 && bottom >= 0, "call {number} is inside: {place:?}");
        // As many as a sheet has stand side by side, and the next ones below.
        assert_eq!(left, 92 + 36 * (number % 26) as i32);
        assert_eq!(top, height * (number / 26) as i32);
    }
}
