//! Any text at all: it is a scenario or it has a mistake, and nothing panics.

use hoard::bytes::bytes_of;
use hoard::run::Run;
use hoard::scenario::Scenario;
use other::generator::Chance;

use crate::common::program::hoard;
use crate::common::{drawn, speech};

/// Words of the grammar, and such as are none.
const WORDS: [&str; 44] = [
    "room",
    "limits",
    "offer",
    "recall",
    "rejoin",
    "bid",
    "write",
    "read",
    "finish",
    "fail",
    "drive",
    "ask",
    "put",
    "settle",
    "servers",
    "drives",
    "slots",
    "slot",
    "ballot",
    "of",
    "off",
    "on",
    "enter",
    "move",
    "strike",
    "piece",
    "hoard",
    "number",
    "0",
    "1",
    "2",
    "3",
    "255",
    "256",
    "4294967295",
    "4294967296",
    "-1",
    "+1",
    "x",
    "#",
    "\n",
    "\r\n",
    "\t",
    "\u{feff}",
];

/// How many texts are read, and how many of these the program is given.
const TEXTS: u32 = 20_000;
const GIVEN: u32 = 200;

/// Random bytes, many of them those of letters and blanks.
fn any_bytes(chance: &mut Chance) -> Vec<u8> {
    let most = chance.one_of(&[2, 20, 200]);
    (0..chance.below(most))
        .map(|_| match chance.below(4) {
            0 => chance.draw() as u8,
            1 => chance.one_of(b" \n\r\t#"),
            _ => chance.from_to(b' '.into(), b'~'.into()) as u8,
        })
        .collect()
}

/// Random words of the grammar, often behind a room.
fn any_words(chance: &mut Chance) -> String {
    let mut text = String::new();
    if !chance.one_in(4) {
        text = speech::room(drawn::any_sizes(chance)) + "\n";
    }
    for _ in 0..chance.below(40) {
        text += chance.one_of(&WORDS);
        text += chance.one_of(&[" ", " ", " ", " ", "\n", "  "]);
    }
    text
}

/// Lines of steps, in which one word is often another, missing or twice.
fn any_lines(chance: &mut Chance) -> String {
    let mut words: Vec<String> = vec![speech::room(drawn::any_sizes(chance)) + "\n"];
    for _ in 0..chance.below(6) {
        let line = speech::step(drawn::any_step(chance));
        words.extend(line.split(' ').map(|word| format!(" {word}")));
        words.push("\n".to_string());
    }
    let place = chance.place(words.len());
    match chance.below(4) {
        0 => words[place] = format!(" {}", chance.one_of(&WORDS)),
        1 => words.truncate(place),
        2 => words.insert(place, words[place].clone()),
        _ => {}
    }
    words.concat()
}

/// A text of any sort.
fn any_text(chance: &mut Chance) -> Vec<u8> {
    match chance.below(3) {
        0 => any_bytes(chance),
        1 => any_words(chance).into_bytes(),
        _ => any_lines(chance).into_bytes(),
    }
}

#[test]
fn any_text_is_a_scenario_or_has_a_mistake() {
    let (mut read, mut mistaken) = (0, 0);
    for index in 0..TEXTS {
        let text = any_text(&mut Chance::of_run(6, index));
        let text = String::from_utf8_lossy(&text);
        match Scenario::read(&text) {
            Ok(scenario) => {
                let again = Scenario::read(&scenario.to_string()).expect("what is written is read");
                let same = again
                    .lines
                    .iter()
                    .map(|line| line.1)
                    .eq(scenario.lines.iter().map(|line| line.1));
                assert!(same && again.sizes == scenario.sizes, "{text}");
                let run = Run::of(&scenario, |_| {}).expect("the room is opened");
                assert!(run.events.len() >= scenario.lines.len() || text.contains("settle"));
                assert!(bytes_of(&scenario).is_ok() || scenario.limits.is_some());
                read += 1;
            }
            Err(mistake) => {
                assert_place(&text, &mistake);
                mistaken += 1;
            }
        }
    }
    assert!(read > 1_000 && mistaken > 10_000, "{read} {mistaken}");
}

/// Asserts that the word stands where the mistake says.
fn assert_place(text: &str, mistake: &hoard::scenario::Mistake) {
    let line = text.lines().nth(mistake.line - 1).unwrap_or_default();
    let rest: String = line.chars().skip(mistake.column - 1).collect();
    match &mistake.word {
        Some(word) => assert!(rest.starts_with(word.as_str()), "{mistake} {text:?}"),
        None => {
            let rest = rest.trim_start();
            assert!(rest.is_empty() || rest.starts_with('#'), "{mistake} {text:?}");
        }
    }
}

#[test]
fn the_program_ends_with_0_or_1() {
    let (mut done, mut refused) = (0, 0);
    for index in 0..GIVEN {
        let text = any_text(&mut Chance::of_run(7, index));
        let output = hoard(&["run", "-"], &text);
        match output.status {
            Some(0) => {
                assert_eq!(output.err, "");
                done += 1;
            }
            Some(1) => {
                assert!(output.out.is_empty() && output.err.starts_with("hoard: standard input"));
                refused += 1;
            }
            status => panic!("{status:?} {}", output.err),
        }
    }
    assert!(done > 10 && refused > 50, "{done} {refused}");
}
