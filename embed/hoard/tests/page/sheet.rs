//! A long run, the slots one at a time, paper, and that the page stands alone.

use other::Sizes;

use crate::browser::Browser;
use crate::common::folder::Folder;
use crate::common::play::Play;
use crate::common::program::done;
use crate::runs::{open, run, slot, slots, SHOWN};
use crate::words::name;

/// The texts of the calls that are shown: how many, the least height of their letters, and how
/// many pairs of neighbours overlap.
const TEXTS: &str = r#"(() => {
  const texts = [...document.querySelectorAll(".view:not([hidden]) .event text")]
    .filter(text => text.textContent !== "");
  const boxes = texts.map(text => text.getBoundingClientRect());
  const over = (a, b) => Math.min(a.right, b.right) - Math.max(a.left, b.left) > 1.5
    && Math.min(a.bottom, b.bottom) - Math.max(a.top, b.top) > 1.5;
  let overlaps = 0;
  for (let at = 0; at < boxes.length; at += 1) {
    for (let other = at + 1; other < Math.min(at + 8, boxes.length); other += 1) {
      overlaps += over(boxes[at], boxes[other]) ? 1 : 0;
    }
  }
  const heights = texts.map(text => parseFloat(getComputedStyle(text).fontSize));
  return [texts.length > 600, Math.min(...heights) >= 9, overlaps].join(" ");
})()"#;

/// How many texts of bars are wider than their bars, and whether there are any texts.
const BARS: &str = r#"(() => {
  const texts = [...document.querySelectorAll(".view:not([hidden]) :is(.band, .block, .off)")]
    .filter(text => getComputedStyle(text).display !== "none");
  const right = element => element.getBoundingClientRect().right;
  const bar = text => text.previousElementSibling.matches("rect")
    ? text.previousElementSibling : text.previousElementSibling.previousElementSibling;
  const wide = texts.filter(text => right(text) > right(bar(text)) + 1);
  return [texts.length > 20, wide.length].join(" ");
})()"#;

/// A run of some 300 calls in three slots.
fn long() -> Play {
    let play = run(3, 1, Sizes { servers: 3, drives: 3, slots: 3 }, 320);
    assert!(play.made().count() >= 300);
    play
}

#[test]
fn three_hundred_calls_stay_readable() {
    let play = long();
    let mut browser = open("long", &play.text);
    let count = browser.value(&format!("document.querySelectorAll('{SHOWN}').length"));
    assert_eq!(count, play.made().count().to_string());
    assert_eq!(browser.value(TEXTS), "true true 0");
    assert_eq!(browser.value(BARS), "true 0");
    // The calls stand from left to right, as they were made, and no picture is cut off.
    let order = format!(
        "(() => {{ const left = [...document.querySelectorAll('{SHOWN}')]\
         .map(e => e.getBoundingClientRect().left);\
         return left.every((x, at) => at === 0 || x > left[at - 1]); }})()"
    );
    assert_eq!(browser.value(&order), "true");
    // The names stay where they are while the pictures are moved.
    let names = "document.querySelector('.view:not([hidden]) .names').getBoundingClientRect().left";
    let before = browser.value(names);
    browser.value("document.querySelector('.view:not([hidden]) .run').scrollLeft = 5000");
    assert_eq!(browser.value(names), before);
    // In rows it is as wide as a sheet of paper, and nothing overlaps.
    browser.click("#rows");
    let wide = "Math.max(...[...document.querySelectorAll('.view:not([hidden]) .strip')]\
                .map(strip => [...strip.children].reduce((sum, svg) => sum + svg.clientWidth, 0)))";
    let wide: f64 = browser.value(wide).parse().expect("a width");
    assert!(wide > 900.0 && wide < 1050.0, "{wide}");
    assert_eq!(browser.value(TEXTS), "true true 0");
}

#[test]
fn the_slots_are_shown_one_at_a_time() {
    let play = long();
    let mut browser = open("slots", &play.text);
    let numbers =
        format!("[...document.querySelectorAll('{SHOWN}')].map(e => e.dataset.n).join(' ')");
    let all: Vec<String> = (1..=play.made().count()).map(|number| number.to_string()).collect();
    assert_eq!(browser.value(&numbers), all.join(" "));
    let slots = slots(&play);
    assert_eq!(slots, [0, 1, 2]);
    for (place, &own) in slots.iter().enumerate() {
        browser.click(&format!("input[name=view][value=\"{}\"]", place + 1));
        // Those of the slot, and what is about every slot: a Fail and the switch of a drive.
        let here = (1..).zip(play.made()).filter(|(_, made)| {
            slot(made).map_or(["fail", "drive"].contains(&name(made.call)), |slot| slot == own)
        });
        let here: Vec<String> = here.map(|(number, _): (u32, _)| number.to_string()).collect();
        assert_eq!(browser.value(&numbers), here.join(" "));
        assert_eq!(shown_views(&mut browser), format!("slot {own}"));
        assert_eq!(browser.value(BARS), "true 0");
    }
    browser.click("input[name=view][value=\"0\"]");
    assert_eq!(shown_views(&mut browser), "all slots");
}

/// The names of the pictures that are seen.
fn shown_views(browser: &mut Browser) -> String {
    browser.value(
        "[...document.querySelectorAll('.view')].filter(view => view.offsetHeight > 0)\
         .map(view => view.getAttribute('aria-label')).join(', ')",
    )
}

#[test]
fn it_prints_on_sheets_of_paper() {
    let play = long();
    let mut browser = open("paper", &play.text);
    let pdf = browser.pdf();
    assert!(pdf.starts_with(b"%PDF"), "it is a document");
    browser.media("print", 1047);
    // What is chosen on the screen is not on paper, and no strip is wider than a sheet.
    let seen = |name: &str| format!("document.querySelector('{name}').offsetHeight > 0");
    for (name, is_seen) in [
        (".choice", "false"),
        ("#card", "false"),
        ("#sentence", "false"),
        ("h1", "true"),
        (".catalogue", "true"),
    ] {
        assert_eq!(browser.value(&seen(name)), is_seen, "{name}");
    }
    let wide =
        "Math.max(...[...document.querySelectorAll('.view:not([hidden]) .strip')].map(strip => \
                strip.lastElementChild.getBoundingClientRect().right)) <= innerWidth + 1";
    assert_eq!(browser.value(wide), "true");
    let strips = browser.value("document.querySelectorAll('.view:not([hidden]) .strip').length");
    let strips: usize = strips.parse().expect("a number");
    assert_eq!(strips, play.made().count().div_ceil(26));
    // Each strip fits on a sheet with the names of its lanes.
    let high =
        "Math.max(...[...document.querySelectorAll('.view:not([hidden]) .strip')].map(strip => \
                strip.getBoundingClientRect().height)) < 725";
    assert_eq!(browser.value(high), "true");
    let names = "[...document.querySelectorAll('.view:not([hidden]) .names')]\
                 .every(names => names.getBoundingClientRect().height > 100)";
    assert_eq!(browser.value(names), "true");
    // Each call has its mark there.
    let marks = "[...document.querySelectorAll('.view:not([hidden]) .event')].filter(event => \
                 ![...event.querySelectorAll('.wrote, .met, .mark, .bad, .fails, .bar')]\
                 .some(mark => mark.getClientRects().length > 0)).length";
    assert_eq!(browser.value(marks), "0");
}

/// A picture that would be too small on paper is printed slot by slot.
#[test]
fn a_large_room_prints_slot_by_slot() {
    let offers = (0..16).map(|slot| format!("offer 3 slot {slot} strike piece {slot}\n"));
    let text = "room 4 servers 7 drives 16 slots\n".to_string() + &offers.collect::<String>();
    let mut browser = open("large", &text);
    assert_eq!(shown_views(&mut browser), "all slots");
    browser.media("print", 1047);
    let slots: Vec<String> = (0..16).map(|slot| format!("slot {slot}")).collect();
    assert_eq!(shown_views(&mut browser), slots.join(", "));
    // Each is named there.
    let names = "[...document.querySelectorAll('h2')].filter(h2 => h2.offsetHeight > 0)\
                 .map(h2 => h2.textContent).join(', ')";
    assert_eq!(browser.value(names), slots.join(", "));
    let sizes = "Math.min(...[...document.querySelectorAll('.steps')].filter(svg => \
                 svg.clientHeight > 0).map(svg => svg.clientHeight / svg.viewBox.baseVal.height))";
    let least: f64 = browser.value(sizes).parse().expect("a number");
    assert!(least > 0.6, "{least}");
    // One slot that is chosen is printed alone.
    browser.media("screen", 1280);
    browser.click("input[name=view][value=\"3\"]");
    browser.media("print", 1047);
    assert_eq!(shown_views(&mut browser), "slot 2");
}

/// What is chosen is printed with its sentence, and what was let go fades nothing, in no picture.
#[test]
fn what_is_chosen_is_printed() {
    let text = "room 2 servers 1 drives 2 slots\noffer 0 slot 1 strike piece 5\n\
        recall 0 slot 0 drive 0\nrejoin 0 slot 0 ballot 1\nwrite 0 slot 0 drive 0\n\
        read 0 slot 0 drive 0 of 1\nwrite 0 slot 0 drive 0\n";
    let mut browser = open("printed", text);
    browser.click("input[name=view][value=\"1\"]");
    for number in [4, 6] {
        browser.click(&format!("{SHOWN}[data-n=\"{number}\"]"));
    }
    browser.media("print", 1047);
    assert_eq!(browser.value("document.getElementById('sentence').offsetHeight > 0"), "true");
    let faded = "[...document.querySelectorAll('.event')].filter(event => \
                 Number(getComputedStyle(event).opacity) < 1).length";
    assert_ne!(browser.value(faded), "0");
    browser.media("screen", 1280);
    browser.click("input[name=view][value=\"0\"]");
    browser.key("Escape");
    assert_eq!(browser.value(faded), "0");
}

#[test]
fn it_stands_alone() {
    let mut browser = open("alone", &long().text);
    let requests = browser.requests();
    assert_eq!(requests.len(), 1, "{requests:?}");
    assert!(requests[0].starts_with("file://"), "{requests:?}");
    assert_eq!(browser.errors(), Vec::<String>::new());
}

#[test]
fn a_title_and_a_text_are_no_markup() {
    let folder = Folder::new("page-markup");
    let scenario = folder.with("<b>&\"x'.txt", "room 1 servers 1 drives 1 slots\nfail 0\n");
    let page = folder.file("run.html");
    done(&["show", &scenario, "-o", &page], b"");
    let mut browser = Browser::open(std::path::Path::new(&page));
    assert_eq!(browser.value("document.title"), "<b>&\"x'.txt");
    assert_eq!(browser.value("document.querySelector('h1').textContent"), "<b>&\"x'.txt");
    assert_eq!(browser.errors(), Vec::<String>::new());
}
