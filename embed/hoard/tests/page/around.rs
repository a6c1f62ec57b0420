//! What stands around the pictures: the room and the counts, the choice, the legend, the catalogues,
//! and the settles that settled nothing.

use other::generator::Reply;
use other::Answer;

use crate::common::play::Play;
use crate::common::said::answers;
use crate::runs::{open, several, slots};

/// The texts of elements, a line for each.
fn texts(name: &str) -> String {
    format!("[...document.querySelectorAll('{name}')].map(e => e.textContent).join('\\n')")
}

/// The room and the counts of a run.
fn summary(play: &Play) -> String {
    let calls = play.made().count();
    let refused = play.made().filter(|made| made.reply.refusal().is_some()).count();
    let commits =
        play.made().filter(|made| matches!(made.reply, Reply::Answer(Answer::Committed(_))));
    let room = play.text.lines().next().unwrap_or_default();
    format!("{room}: {calls} calls, {refused} refused, {} committed.", commits.count())
}

/// The catalogues as a text: those that `hoard run` prints, with no lines between.
fn catalogues(play: &Play) -> String {
    let answers = answers(play);
    let lines = answers.iter().skip_while(|line| !line.starts_with("server "));
    let cells = lines.filter(|line| !line.contains("-+-"));
    let cells = cells.map(|line| line.replace(" | ", "|").trim().replace(' ', ""));
    cells.collect::<Vec<_>>().join("\n")
}

#[test]
fn the_room_and_the_catalogues_are_told() {
    let rows = "[...document.querySelectorAll('.catalogue')].flatMap(table => [table.caption, \
                ...table.rows]).map(row => row.cells ? [...row.cells].map(cell => \
                cell.textContent.replaceAll(' ', '')).join('|') : row.textContent.replaceAll(' ', ''))\
                .join('\\n')";
    for (number, play) in several(11).iter().enumerate() {
        let mut browser = open(&format!("around-{number}"), &play.text);
        let first = browser.value("document.querySelector('h1 + p').textContent");
        assert_eq!(first, summary(play));
        // Without a piece the table has a head all the same.
        let seen = browser.value(rows).replace("piece|hoard\nnopiece", "nopiece");
        assert_eq!(seen, catalogues(play));
        assert_eq!(browser.value(&texts(".choice label")), choices(play));
    }
}

/// The pictures that can be chosen, and whether the strips stand one below the other.
fn choices(play: &Play) -> String {
    let slots = slots(play);
    let several = (slots.len() > 1).then(|| " all slots\n".to_string());
    let single = slots.iter().map(|slot| format!(" slot {slot}\n"));
    several.into_iter().chain(single).chain([" one below the other".to_string()]).collect()
}

/// A settle that settles nothing is listed.
#[test]
fn settles_that_settle_nothing_are_listed() {
    let text = "room 2 servers 3 drives 2 slots\noffer 0 slot 0 strike piece 5\nsettle 0 slot 0\n\
        settle 0 slot 0\nfail 1\nsettle 1 slot 1\ndrive 0 off\ndrive 1 off\nsettle 1 slot 1\n";
    let mut browser = open("open", text);
    let expected = "line 4, settle 0 slot 0: no next step after 0 steps: the slot is settled for \
        this server\nline 6, settle 1 slot 1: no next step after 7 steps: no command is offered and \
        none was seen\nline 9, settle 1 slot 1: refused: drive 2 is on, no majority of 3 (19)";
    assert_eq!(browser.value(&texts(".open li")), expected);
}

/// Each key of the legend looks as what it explains.
#[test]
fn the_legend_explains_the_marks() {
    let text = "room 2 servers 2 drives 1 slots\nrecall 0 slot 0 drive 0\nwrite 0 slot 0 drive 0\n";
    let mut browser = open("legend", text);
    let keys = "[...document.querySelectorAll('.key')].map(key => { \
                const drawn = [...key.querySelectorAll('svg *')].map(e => e.getAttribute('class')); \
                return key.textContent.trim() + ': ' + drawn.join(', '); }).join('\\n')";
    let expected = "phase 0: phase p0\nphase 1: phase p1\nphase 2: phase p2\n\
        phase 3: settled: phase p3\na block is written: event write, wrote\n\
        read or recalled: event read, met\nrecalled: event recall, shaft\nanother call: mark\n\
        chosen: event chosen, mark\nrefused: event refused, shaft, bad\noutbid: event outbid, met\n\
        committed: flag\nthe server fails: fails\nthe drive is off: shade, bar";
    assert_eq!(browser.value(keys), expected);
    // No two of them look the same.
    let looks = "new Set([...document.querySelectorAll('.key')].map(key => [...key.querySelectorAll('svg *')]\
                 .map(e => { const look = getComputedStyle(e); return [e.tagName, look.fill, look.stroke, \
                 look.strokeDasharray, look.strokeWidth].join(); }).join(';'))).size";
    assert_eq!(browser.value(looks), "14");
}
