//! The records of a call under the mouse, before it and after.

use crate::browser::Browser;
use crate::common::places::places;
use crate::common::play::{Block, Made, Play, Record};
use crate::common::said::answer_of;
use crate::common::speech::{self, command};
use crate::runs::{open, several, slot, slots, SHOWN};

/// The lines of the card, and of each table its name and its rows.
const CARD: &str = r#"(() => {
  const card = document.getElementById("card");
  if (card.hidden) { return "hidden"; }
  const box = card.getBoundingClientRect();
  const inside = box.left >= 0 && box.top >= 0 && box.right <= innerWidth && box.bottom <= innerHeight;
  const row = cells => [...cells].map(cell => cell.textContent).join("|");
  const tables = [...card.querySelectorAll("table")].map(table =>
    [table.caption.textContent, ...[...table.rows].slice(1).map(line =>
      (line.className || "same") + "|" + row(line.cells))].join("\n"));
  const whole = card.scrollHeight <= card.clientHeight + 1;
  return [inside && whole ? "inside" : "cut off", ...[...card.querySelectorAll("b, span")].map(e => e.textContent),
    ...tables].join("\n");
})()"#;

#[test]
fn a_call_under_the_mouse_shows_its_records() {
    for (number, play) in several(37).iter().enumerate() {
        let mut browser = open(&format!("records-{number}"), &play.text);
        assert_eq!(browser.value(CARD), "hidden");
        for (place, made) in play.made().enumerate() {
            compare(&mut browser, play, place + 1, made);
        }
        browser.hover("h1");
        assert_eq!(browser.value(CARD), "hidden");
    }
}

fn compare(browser: &mut Browser, play: &Play, number: usize, made: &Made) {
    browser.hover(&format!("{SHOWN}[data-n=\"{number}\"]"));
    let card = browser.value(CARD);
    let mut lines = card.lines();
    assert_eq!(lines.next(), Some("inside"), "{card}");
    let call = speech::call(made.call).expect("it stands in a line");
    assert_eq!(lines.next(), Some(format!("{number}. {call}").as_str()));
    let answer = format!("{} (line {})", answer_of(made, play.sizes), made.line);
    assert_eq!(lines.next(), Some(answer.as_str()));
    let rest: Vec<&str> = lines.collect();
    assert_eq!(rest, tables(play, made), "{made:?}");
}

/// The lines of the tables of a call. One that names no slot has a table for each that is shown.
fn tables(play: &Play, made: &Made) -> Vec<String> {
    let places = places(made.call);
    let Some(server) = places.server else { return drives(play, made) };
    let shown = slots(play);
    let pairs = made.before.servers.iter().zip(&made.after.servers);
    let pairs = pairs.filter(|((slot, _), _)| shown.contains(slot));
    let mut lines: Vec<String> =
        pairs.flat_map(|(before, after)| record(play, server, before, after)).collect();
    if let (Some(before), Some(after)) = (made.before.block, made.after.block) {
        let (owner, drive) = (places.owner.unwrap_or(0), places.drive.unwrap_or(0));
        let slot = slot(made).unwrap_or(0);
        lines.push(format!("block of server {owner} on drive {drive} in slot {slot}"));
        lines.extend(block_rows(before, after));
    }
    lines
}

/// The table of the drives.
fn drives(play: &Play, made: &Made) -> Vec<String> {
    let marked = |marks: u32| {
        let drives = (0..play.sizes.drives).filter(|drive| marks >> drive & 1 == 1);
        listed(drives.map(|drive| format!("drive {drive}")))
    };
    vec!["drives".to_string(), row("off", &marked(made.before.off), &marked(made.after.off))]
}

/// The table of a server's record in a slot.
fn record(
    play: &Play,
    server: u32,
    (slot, before): &(u32, Record),
    (_, after): &(u32, Record),
) -> Vec<String> {
    let name = format!("server {server} in slot {slot}");
    [name].into_iter().chain(record_rows(play, before, after)).collect()
}

/// A row of a table: it is marked where the cell changed.
fn row(name: &str, before: &str, after: &str) -> String {
    let class = if before == after { "same" } else { "changed" };
    format!("{class}|{name}|{before}|{after}")
}

fn listed(marked: impl Iterator<Item = String>) -> String {
    let marked: Vec<String> = marked.collect();
    if marked.is_empty() {
        "none".to_string()
    } else {
        marked.join(", ")
    }
}

/// The rows of a server's record, its eleven cells as 01 and E5 have them.
fn record_rows(play: &Play, before: &Record, after: &Record) -> Vec<String> {
    const NAMES: [&str; 11] = [
        "phase", "mbal", "bal", "inp", "offer", "top", "seenbal", "seeninp", "written", "read",
        "agreed",
    ];
    let (drives, servers) = (play.sizes.drives, play.sizes.servers);
    let cell = |place: usize, value: u32| match NAMES[place] {
        "inp" | "offer" | "seeninp" | "agreed" => value_words(value),
        "written" => {
            listed((0..drives).filter(|d| value >> d & 1 == 1).map(|d| format!("drive {d}")))
        }
        "read" => {
            let all = (0..drives).flat_map(|d| (0..servers).map(move |q| (d, q)));
            let marked = all.filter(|(d, q)| value >> (4 * d + q) & 1 == 1);
            listed(marked.map(|(d, q)| format!("drive {d} of {q}")))
        }
        _ => value.to_string(),
    };
    (0..11).map(|at| row(NAMES[at], &cell(at, before[at]), &cell(at, after[at]))).collect()
}

/// The rows of a block.
fn block_rows(before: Block, after: Block) -> Vec<String> {
    const NAMES: [&str; 4] = ["mbal", "bal", "inp", "done"];
    let cell = |place: usize, value: u32| {
        if place < 2 {
            value.to_string()
        } else {
            value_words(value)
        }
    };
    (0..4).map(|at| row(NAMES[at], &cell(at, before[at]), &cell(at, after[at]))).collect()
}

/// A command, or that there is none.
fn value_words(value: u32) -> String {
    if value == 0 {
        "none".to_string()
    } else {
        command(value)
    }
}

/// A Fail in the largest room: in the picture of all slots every record, and in that of one slot
/// the record there.
#[test]
fn the_records_of_a_fail_are_all_there() {
    let offers = (0..16).map(|slot| format!("offer 3 slot {slot} strike piece {slot}\n"));
    let text = "room 4 servers 7 drives 16 slots\n".to_string() + &offers.collect::<String>();
    let mut browser = open("fail", &(text + "fail 3\nfail 3\n"));
    let names =
        "[...document.querySelectorAll('#card caption')].map(e => e.textContent).join(', ')";
    let all: Vec<String> = (0..16).map(|slot| format!("server 3 in slot {slot}")).collect();
    for number in [17, 18] {
        browser.hover(&format!("{SHOWN}[data-n=\"{number}\"] .number"));
        assert!(browser.value(CARD).starts_with("inside\n"), "{}", browser.value(CARD));
        assert_eq!(browser.value(names), all.join(", "));
    }
    browser.click("input[name=view][value=\"6\"]");
    browser.hover(&format!("{SHOWN}[data-n=\"17\"] .number"));
    assert_eq!(browser.value(names), "server 3 in slot 5");
}

/// A run that is about no slot is drawn with slot 0, and shows the records there.
#[test]
fn a_fail_alone_has_its_record() {
    let mut browser = open("fail alone", "room 1 servers 1 drives 1 slots\nfail 0\n");
    browser.hover(&format!("{SHOWN}[data-n=\"1\"]"));
    let card = browser.value(CARD);
    assert!(card.contains("\nserver 0 in slot 0\nsame|phase|0|0\n"), "{card}");
}

/// The cells that a call changes are marked, and the card moves with the picture.
#[test]
fn the_card_marks_what_changes_and_stays_at_its_call() {
    let text = "room 1 servers 1 drives 1 slots\noffer 0 slot 0 strike piece 5\n".to_string()
        + &"fail 0\n".repeat(60);
    let mut browser = open("card", &text);
    browser.hover(&format!("{SHOWN}[data-n=\"1\"]"));
    let colour = |row: &str| {
        format!("getComputedStyle(document.querySelector('#card tr{row} td')).backgroundColor")
    };
    let (changed, same) = (colour(".changed"), colour(":not(.changed):has(td)"));
    assert_ne!(browser.value(&changed), browser.value(&same));
    // The mouse is elsewhere, and the call has the focus.
    browser.hover("h1");
    browser.value(&format!("document.querySelector('{SHOWN}[data-n=\"10\"]').focus()"));
    let left = "document.getElementById('card').getBoundingClientRect().left";
    let there: f64 = browser.value(left).parse().expect("a number");
    browser.value("document.querySelector('.view:not([hidden]) .run').scrollLeft = 72");
    browser.value("new Promise(done => setTimeout(done, 100))");
    let moved: f64 = browser.value(left).parse().expect("a number");
    assert!((moved - there + 72.0).abs() < 1.0, "{there} {moved}");
}
