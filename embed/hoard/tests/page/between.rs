//! Two writes on a drive are chosen: what was read or written there between them is marked, and
//! said in a sentence.

use other::generator::Chance;

use crate::browser::Browser;
use crate::common::places::places;
use crate::common::play::{Made, Play};
use crate::runs::{open, several, slot, slots, SHOWN};
use crate::words::{name, told};

/// The numbers of the events of a class that are shown, and what the sentence says.
fn marked(browser: &mut Browser, class: &str) -> Vec<usize> {
    let numbers =
        format!("[...document.querySelectorAll('{SHOWN}.{class}')].map(e => e.dataset.n)");
    let numbers = browser.value(&format!("{numbers}.join(' ')"));
    numbers.split_whitespace().map(|number| number.parse().expect("a number")).collect()
}

fn sentence(browser: &mut Browser) -> String {
    browser.value("document.getElementById('sentence').textContent")
}

/// Clicks on a call that is shown.
fn click(browser: &mut Browser, number: usize) {
    browser.click(&format!("{SHOWN}[data-n=\"{number}\"]"));
}

#[test]
fn what_lies_between_two_writes_is_marked_and_said() {
    let mut pairs = 0;
    for (number, play) in several(11).iter().enumerate() {
        let mut browser = open(&format!("between-{number}"), &play.text);
        let slots = slots(play);
        let mut chance = Chance::of_run(5, number as u32);
        // All slots, and then each by itself.
        let views = if slots.len() > 1 { slots.len() + 1 } else { 1 };
        for view in 0..views {
            browser.click(&format!("input[name=view][value=\"{view}\"]"));
            let shown = if view == 0 { slots.clone() } else { vec![slots[view - 1]] };
            for (from, to) in some_pairs(&mut chance, play, &shown) {
                choose(&mut browser, play, &shown, from, to);
                pairs += 1;
            }
        }
        assert_eq!(browser.errors(), Vec::<String>::new());
    }
    assert!(pairs >= 30, "{pairs} pairs");
}

/// Some pairs of writes on one drive, in the slots that are shown.
fn some_pairs(chance: &mut Chance, play: &Play, shown: &[u32]) -> Vec<(usize, usize)> {
    let writes: Vec<(usize, &Made)> =
        (1..).zip(play.made()).filter(|(_, made)| is_write(made, shown)).collect();
    let drive = |made: &Made| places(made.call).drive;
    let pairs = writes.iter().enumerate().flat_map(|(place, (from, first))| {
        let rest = writes[place + 1..].iter();
        rest.filter(|(_, second)| drive(first) == drive(second)).map(|(to, _)| (*from, *to))
    });
    let mut pairs: Vec<(usize, usize)> = pairs.collect();
    while pairs.len() > 6 {
        pairs.swap_remove(chance.place(pairs.len()));
    }
    pairs
}

fn is_write(made: &Made, shown: &[u32]) -> bool {
    let inside = slot(made).is_some_and(|slot| shown.contains(&slot));
    inside && name(made.call) == "write" && made.reply.refusal().is_none()
}

/// Chooses two writes, compares what is marked and said, and lets them go.
fn choose(browser: &mut Browser, play: &Play, shown: &[u32], from: usize, to: usize) {
    let made: Vec<&Made> = play.made().collect();
    let drive = places(made[from - 1].call).drive;
    let inside = (from + 1..to).filter(|&number| {
        let made = made[number - 1];
        let here = slot(made).is_some_and(|slot| shown.contains(&slot));
        here && places(made.call).drive == drive && told(made).is_some()
    });
    let inside: Vec<usize> = inside.collect();
    // The later one may be chosen first.
    let (first, second) = if from.is_multiple_of(2) { (from, to) } else { (to, from) };
    click(browser, first);
    assert_eq!(marked(browser, "chosen-write"), [first]);
    click(browser, second);
    assert_eq!(marked(browser, "chosen-write"), [from, to]);
    assert_eq!(marked(browser, "between"), inside);
    let call = |number: usize| {
        let slot = slot(made[number - 1]).filter(|_| shown.len() > 1);
        format!("call {number}{}", slot.map_or(String::new(), |slot| format!(" in slot {slot}")))
    };
    let says = |number: usize| told(made[number - 1]).expect("it read or wrote");
    let ends = [from, to].map(|number| format!("{} ({})", call(number), says(number)));
    let drive = drive.expect("a write is on a drive");
    let here = if let [slot] = shown { format!(" in slot {slot}") } else { String::new() };
    let told: Vec<String> =
        inside.iter().map(|&number| format!("in {} {}", call(number), says(number))).collect();
    let rest = match told.len() {
        0 => "no server read or wrote anything".to_string(),
        1 => format!("1 call read or wrote: {}", told[0]),
        count => format!("{count} calls read or wrote: {}", told.join("; ")),
    };
    let expected = format!("Between {} and {}, on drive {drive}{here}, {rest}.", ends[0], ends[1]);
    assert_eq!(sentence(browser), expected);
    assert_faded(browser, inside.len() + 2);
    browser.key("Escape");
    assert_eq!(marked(browser, "chosen-write"), []);
    assert_eq!(marked(browser, "between"), []);
}

/// That so many calls are seen as usual and all others fade.
fn assert_faded(browser: &mut Browser, clear: usize) {
    let script = format!(
        "[...document.querySelectorAll('{SHOWN}')].map(e => Number(getComputedStyle(e).opacity))\
         .filter(opacity => opacity === 1).length"
    );
    assert_eq!(browser.value(&script), clear.to_string());
}

/// A run with writes on two drives, and a Read that is refused.
const SMALL: &str = "room 2 servers 3 drives 1 slots\nrecall 0 slot 0 drive 0\n\
    recall 0 slot 0 drive 1\nrejoin 0 slot 0 ballot 1\nwrite 0 slot 0 drive 0\n\
    read 0 slot 0 drive 0 of 0\nwrite 0 slot 0 drive 0\nwrite 0 slot 0 drive 1\n\
    write 0 slot 0 drive 0\n";

#[test]
fn writes_are_chosen_and_let_go() {
    let mut browser = open("chosen", SMALL);
    let first = "Choose two writes on a drive: what any server read or wrote there between them \
                 is shown.";
    assert_eq!(sentence(&mut browser), first);
    // What is no write is not chosen.
    click(&mut browser, 1);
    click(&mut browser, 5);
    assert_eq!(marked(&mut browser, "chosen-write"), []);
    click(&mut browser, 4);
    let one = "Chosen is call 4 (server 0 wrote mbal 1, bal 0) on drive 0 in slot 0. \
               Choose a second write on drive 0.";
    assert_eq!(sentence(&mut browser), one);
    // A second click lets it go.
    click(&mut browser, 4);
    assert_eq!(sentence(&mut browser), first);
    // A write on another drive begins anew, and so does a third one.
    click(&mut browser, 4);
    click(&mut browser, 7);
    assert_eq!(marked(&mut browser, "chosen-write"), [7]);
    click(&mut browser, 4);
    // With one write nothing fades yet.
    assert_faded(&mut browser, 8);
    click(&mut browser, 6);
    assert_eq!(marked(&mut browser, "chosen-write"), [4, 6]);
    // One of two can be let go, and chosen again.
    click(&mut browser, 6);
    assert_eq!(marked(&mut browser, "chosen-write"), [4]);
    click(&mut browser, 6);
    let nothing = "Between call 4 (server 0 wrote mbal 1, bal 0) and call 6 (server 0 wrote \
                   mbal 1, bal 0), on drive 0 in slot 0, no server read or wrote anything.";
    assert_eq!(sentence(&mut browser), nothing);
    click(&mut browser, 8);
    assert_eq!(marked(&mut browser, "chosen-write"), [8]);
}

/// The columns of the writes and of what lies between have colours of their own.
#[test]
fn what_is_marked_has_a_colour() {
    let mut browser = open("colours", SMALL);
    click(&mut browser, 4);
    click(&mut browser, 8);
    let colour = |number: usize| {
        format!(
            "(() => {{ const look = getComputedStyle(document.querySelector('{SHOWN}[data-n=\"{number}\"] .hit'));\
             return look.fill + look.fillOpacity; }})()"
        )
    };
    browser.hover("h1");
    let [write, between, other] = [4, 6, 7].map(|number| browser.value(&colour(number)));
    assert!(write != between && between != other && write != other, "{write} {between} {other}");
}

#[test]
fn writes_are_chosen_by_keys() {
    let mut browser = open("keys", SMALL);
    for (number, key) in [(4, "Enter"), (8, " ")] {
        browser.value(&format!("document.querySelector('{SHOWN}[data-n=\"{number}\"]').focus()"));
        assert_eq!(browser.value("document.getElementById('card').hidden"), "false");
        browser.key(key);
    }
    assert_eq!(marked(&mut browser, "chosen-write"), [4, 8]);
    assert_eq!(marked(&mut browser, "between"), [6]);
    browser.key("Escape");
    assert_eq!(marked(&mut browser, "chosen-write"), []);
    assert_eq!(browser.value("document.getElementById('card').hidden"), "true");
}

/// Much between two writes: the sentence is whole, and takes little room on the screen.
#[test]
fn a_long_sentence_takes_little_room() {
    let text =
        "room 2 servers 1 drives 1 slots\nrecall 0 slot 0 drive 0\nrejoin 0 slot 0 ballot 1\n\
        write 0 slot 0 drive 0\n"
            .to_string()
            + &"read 0 slot 0 drive 0 of 1\n".repeat(200);
    let mut browser = open("sentence", &(text + "write 0 slot 0 drive 0\n"));
    click(&mut browser, 3);
    click(&mut browser, 204);
    assert_eq!(marked(&mut browser, "between").len(), 200);
    assert!(sentence(&mut browser).contains("200 calls read or wrote: in call 4 server 0 read"));
    let height = browser.value("document.getElementById('sentence').offsetHeight");
    assert!(height.parse::<f64>().expect("a number") < 150.0, "{height}");
}
