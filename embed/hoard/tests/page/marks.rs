//! The mark, the arrow and the texts of each call.

use other::Sizes;

use crate::common::places::places;
use crate::common::play::{Made, Play};
use crate::runs::{open, several, slot, slots};
use crate::words::{lines, name, outcome};

/// What is seen of each call: its number, the classes of its mark, its texts, the row in which the
/// upper end of its mark is, that of its lower end, which way its arrow goes, whether a flag or a
/// cross stands there, and from which to which row its bar goes. The rows are counted by the names beside the
/// lanes.
const SEEN: &str = r#"(() => {
  const view = document.querySelector(".view:not([hidden])");
  const names = view.querySelector(".names");
  const middle = box => (box.top + box.bottom) / 2;
  const rows = found => [...found].map(text => middle(text.getBoundingClientRect()));
  const several = names.querySelectorAll(".slot");
  const lanes = [...names.querySelectorAll(".lane")].filter(t => t.textContent.startsWith("server"));
  const servers = rows(several.length ? several : lanes);
  const blocks = rows(names.querySelectorAll(".row:not(.slot)"));
  const near = (ys, y) => ys.reduce((best, at, place) =>
    Math.abs(at - y) < Math.abs(ys[best] - y) ? place : best, 0);
  return [...view.querySelectorAll(".event")].map(event => {
    const box = name => event.querySelector(name)?.getBoundingClientRect();
    const text = name => event.querySelector(name).textContent;
    const [end, head, there, shaft] = [".end", ".head", ".wrote, .met", ".shaft"].map(box);
    const upper = end ? middle(end) : there ? head.top : middle(box(".bad, .mark, .fails, .bar"));
    const lower = there ? near(blocks, middle(there)) : shaft ? near(blocks, shaft.bottom) : "";
    const arrow = !head ? (shaft ? "broken" : "") : middle(head) > middle(shaft) ? "down" : "up";
    const flag = event.querySelector(".flag") ? "flag" : event.querySelector(".bad") ? "cross" : "";
    const bar = box(".bar");
    const rows = [...servers, ...blocks];
    const from = bar ? near(rows, bar.top + 8) + " to " + near(rows, bar.bottom - 8) : "";
    return [event.dataset.n, event.classList, text(".number"), text(".first"), text(".second"),
      near(servers, upper), lower, arrow, flag, from].join("|");
  }).join("\n");
})()"#;

/// The names beside the lanes, from the top.
const NAMES: &str = r#"[...document.querySelectorAll(".view:not([hidden]) .strip:first-child .names text")]
  .map(text => [text.getBoundingClientRect().top, text.textContent])
  .sort(([one], [other]) => one - other).map(([, words]) => words).join("\n")"#;

#[test]
fn the_lanes_have_their_names() {
    for (number, play) in several(11).iter().enumerate() {
        let mut browser = open(&format!("names-{number}"), &play.text);
        let slots = slots(play);
        let rows = |server: usize| {
            let named = slots.iter().filter(|_| slots.len() > 1);
            let named: Vec<String> = named.map(|slot| format!("slot {slot}")).collect();
            [format!("server {server}")].into_iter().chain(named)
        };
        let blocks = |drive: usize| {
            let named = (0..play.sizes.servers).map(|server| format!("of {server}"));
            [format!("drive {drive}")].into_iter().chain(named)
        };
        let servers = (0..play.sizes.servers).flat_map(rows);
        let mut expected: Vec<String> =
            servers.chain((0..play.sizes.drives).flat_map(blocks)).collect();
        // The name of a lane stands beside that of its first row.
        let seen = browser.value(NAMES);
        let mut seen: Vec<&str> = seen.lines().collect();
        expected.sort_unstable();
        seen.sort_unstable();
        assert_eq!(seen, expected);
        in_order(&browser.value(NAMES), &play.sizes);
    }
}

/// That the lanes stand in their order, each before its rows.
fn in_order(names: &str, sizes: &Sizes) {
    let lanes: Vec<&str> = names
        .lines()
        .filter(|name| name.starts_with("server") || name.starts_with("drive"))
        .collect();
    let servers = (0..sizes.servers).map(|server| format!("server {server}"));
    let drives = (0..sizes.drives).map(|drive| format!("drive {drive}"));
    assert_eq!(lanes, servers.chain(drives).collect::<Vec<_>>());
}

#[test]
fn every_call_has_its_mark() {
    for (number, play) in several(11).iter().enumerate() {
        let mut browser = open(&format!("marks-{number}"), &play.text);
        let seen = browser.value(SEEN);
        let seen: Vec<&str> = seen.lines().collect();
        assert_eq!(seen.len(), play.made().count());
        for (place, (made, seen)) in play.made().zip(seen).enumerate() {
            compare(play, place + 1, made, seen);
        }
        assert_eq!(browser.errors(), Vec::<String>::new());
    }
}

/// Compares what is seen of a call with what it should be.
fn compare(play: &Play, number: usize, made: &Made, seen: &str) {
    let fields: Vec<&str> = seen.split('|').collect();
    let &[n, class, shown, first, second, upper, lower, arrow, flag, bar] = &fields[..] else {
        panic!("{seen}");
    };
    let outcome = outcome(made.reply);
    assert_eq!((n, shown), (number.to_string().as_str(), n), "{seen}");
    assert_eq!(class, format!("event {} {outcome}", name(made.call)));
    let (line, other) = lines(made, play.sizes);
    assert_eq!((first, second), (line.as_str(), other.as_str()), "{made:?}");
    let sign = match outcome {
        "committed" => "flag",
        "refused" => "cross",
        _ => "",
    };
    assert_eq!(flag, sign, "{seen}");
    assert_eq!(arrow, expected_arrow(play, made), "{made:?}");
    if let Some(expected) = expected_bar(play, made) {
        assert_eq!(bar, expected, "the bar of {seen}");
    }
    if let Some(row) = server_row(play, made) {
        assert_eq!(upper, row.to_string(), "the server's row of {seen}");
    }
    let block = if arrow.is_empty() { None } else { block_row(play, made) };
    assert_eq!(lower, block.map_or(String::new(), |row| row.to_string()), "the block of {seen}");
}

/// From which to which row the bar of a call goes: of a Fail through all rows of the server, of a
/// switch through all rows of the drive. None where the room has no such lane.
fn expected_bar(play: &Play, made: &Made) -> Option<String> {
    let (slots, servers) = (slots(play).len(), play.sizes.servers);
    let accepted = made.reply.refusal().is_none();
    let places = places(made.call);
    let (first, rows) = match (name(made.call), places.server, places.drive) {
        ("fail", Some(server), _) if accepted => (server as usize * slots, slots),
        ("drive", _, Some(drive)) if accepted => {
            (servers * slots + drive as usize * servers, servers)
        }
        ("fail" | "drive", _, _) => return None,
        _ => return Some(String::new()),
    };
    Some(format!("{first} to {}", first + rows - 1))
}

/// Which way the arrow of a call goes: a Write to the drive, a Recall and a Read from it.
fn expected_arrow(play: &Play, made: &Made) -> &'static str {
    if block_row(play, made).is_none() {
        return "";
    }
    match (made.reply.refusal(), name(made.call)) {
        (Some(_), _) => "broken",
        (None, "write") => "down",
        (None, _) => "up",
    }
}

/// The row of the server in its slot, none where the picture has no such row, and where the mark
/// is as high as the lane.
fn server_row(play: &Play, made: &Made) -> Option<usize> {
    let slots = slots(play);
    let server = places(made.call).server.filter(|&server| server < play.sizes.servers as u32)?;
    let place = slots.iter().position(|&own| Some(own) == slot(made))?;
    Some(server as usize * slots.len() + place)
}

/// The row of the block that a call is about.
fn block_row(play: &Play, made: &Made) -> Option<usize> {
    let places = places(made.call);
    let (drive, owner) = (places.drive? as usize, places.owner? as usize);
    let servers = play.sizes.servers;
    (drive < play.sizes.drives && owner < servers).then_some(drive * servers + owner)
}

/// Each refusal, by hand: what stands beside the mark of the last call of these.
const REFUSED: [(&str, &str); 15] = [
    ("offer 2 slot 0 strike piece 1", "the room has no server 2"),
    ("offer 0 slot 0 number 1", "no command of this room"),
    ("rejoin 0 slot 0 ballot 2", "2 is not a ballot of server 0"),
    ("write 0 slot 0 drive 0", "in phase 0"),
    ("drive 1 off\nrecall 0 slot 0 drive 1", "drive 1 is off"),
    ("rejoin 0 slot 0 ballot 1", "no majority"),
    ("recall 0 slot 0 drive 0\nrejoin 0 slot 0 ballot 1\nread 0 slot 0 drive 0 of 1", NOT_WRITTEN),
    ("finish 0 slot 0", "no majority"),
    ("bid 0 slot 0 ballot 1", "the ballot is not above 1"),
    ("write 0 slot 0 drive 0\nread 0 slot 0 drive 0 of 1\nfinish 0 slot 0", NOTHING),
    ("put 0 slot 0 strike piece 1\nput 0 slot 0 strike piece 1", "the slot is not free"),
    ("ask 0", "no slot is free for server 0"),
    ("drive 5 off", "the room has no drive 5"),
    ("fail 7", "the room has no server 7"),
    (
        "recall 1 slot 0 drive 0\nrejoin 1 slot 0 ballot 1000000\nwrite 1 slot 0 drive 0\n\
         read 0 slot 0 drive 0 of 1",
        "no ballot left",
    ),
];
const NOT_WRITTEN: &str = "drive 0 is not written";
const NOTHING: &str = "nothing offered or seen";

#[test]
fn each_refusal_is_said_in_few_words() {
    let calls: Vec<&str> = REFUSED.iter().map(|(calls, _)| *calls).collect();
    let text = format!("room 2 servers 2 drives 1 slots\n{}\n", calls.join("\n"));
    let mut browser = open("refused", &text);
    let seen = browser.value(
        "[...document.querySelectorAll('.view:not([hidden]) .event.refused .second')]\
         .map(text => text.textContent).join('\\n')",
    );
    let expected: Vec<&str> = REFUSED.iter().map(|(_, words)| *words).collect();
    assert_eq!(seen, expected.join("\n"));
    // Each has its cross.
    let crosses =
        "document.querySelectorAll('.view:not([hidden]) .event.refused:has(.bad)').length";
    assert_eq!(browser.value(crosses), REFUSED.len().to_string());
}
