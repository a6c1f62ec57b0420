//! Steps as text, as scenarios and as bytes: each is made of the others again.

use hoard::bytes::{bytes_of, scenario_of, NoWords};
use hoard::scenario::Scenario;
use other::generator::{make_input, Chance};
use other::{read_record, rehearse, Sizes};

use crate::common::{drawn, speech};

/// How many scenarios are made of any steps, and how many steps one has: as many of the longest
/// records as rehearse reads are more.
const SCENARIOS: u32 = 20;
const STEPS: u32 = 8_000;

/// A text with the lines of any steps, and their bytes.
fn any_steps(chance: &mut Chance) -> (String, Vec<u8>) {
    let sizes = drawn::any_sizes(chance);
    let mut text = speech::room(sizes) + "\n";
    let mut bytes = drawn::head(sizes);
    for _ in 0..STEPS {
        let step = drawn::any_step(chance);
        text += &(speech::step(step) + "\n");
        bytes.extend(drawn::record(step));
    }
    (text, bytes)
}

#[test]
fn any_steps_are_the_same_as_text_and_as_bytes() {
    for index in 0..SCENARIOS {
        let (text, bytes) = any_steps(&mut Chance::of_run(3, index));
        let read = Scenario::read(&text).expect("every line is one");
        assert_eq!(read.lines.len(), STEPS as usize);
        assert!(read.to_string() == text, "{index}");
        assert!(scenario_of(&bytes) == Ok(read.clone()), "{index}");
        assert!(bytes_of(&read) == Ok(bytes), "{index}");
    }
}

/// A line of a call that has no step record, or of a settle.
fn any_other_line(chance: &mut Chance) -> String {
    let (server, slot) = (drawn::byte(chance), drawn::byte(chance));
    match chance.below(3) {
        0 => format!("ask {server}"),
        1 => format!("put {server} slot {slot} {}", speech::command(drawn::number(chance))),
        _ => speech::settle(server, slot),
    }
}

/// A scenario of any lines, one in two of which has limits.
fn any_scenario(chance: &mut Chance) -> String {
    let mut text = speech::room(drawn::any_sizes(chance)) + "\n";
    if let Some(limits) = drawn::limits_or_none(chance) {
        text += &(speech::limits(&limits) + "\n");
    }
    for _ in 0..STEPS {
        let step = chance.one_in(2).then(|| speech::step(drawn::any_step(chance)));
        text += &step.unwrap_or_else(|| any_other_line(chance));
        text.push('\n');
    }
    text
}

#[test]
fn any_lines_are_the_same_as_text() {
    for index in 0..SCENARIOS {
        let text = any_scenario(&mut Chance::of_run(4, index));
        let read = Scenario::read(&text).expect("every line is one");
        assert!(read.to_string() == text, "{index}");
    }
}

/// What is to be made of an input: the text of its steps, or the refusal, with the number and
/// the place of the record where it is about one.
#[derive(Debug, PartialEq, Eq)]
enum Made {
    Text(String),
    NoRoom(u32),
    NoRecord { number: usize, at: usize, refusal: u32 },
}

/// What is to be made of an input, by what rehearse prints and by the records.
fn expected(input: &[u8]) -> Made {
    let printed = String::from_utf8(rehearse(input)).expect("rehearse prints text");
    if let Some(number) = printed.strip_prefix("open refused ") {
        return Made::NoRoom(number.trim_end().parse().expect("a number"));
    }
    let sizes = Sizes::fit(input[0].into(), input[1].into(), input[2].into());
    let mut text = speech::room(sizes.expect("the room was opened")) + "\n";
    let (mut number, mut at) = (0, 3);
    while let Ok((step, used)) = read_record(&input[at..]) {
        text += &(speech::step(step) + "\n");
        (number, at) = (number + 1, at + used);
    }
    let mut refusals = [14, 15].into_iter();
    let ends = |refusal: &u32| printed.contains(&format!("{number} refused {refusal}\n"));
    match refusals.find(ends) {
        Some(refusal) => Made::NoRecord { number, at, refusal },
        None => Made::Text(text),
    }
}

/// What is made of an input.
fn found(input: &[u8]) -> Made {
    match scenario_of(input) {
        Ok(scenario) => Made::Text(scenario.to_string()),
        Err(NoWords::Room(error)) => Made::NoRoom(error.number()),
        Err(NoWords::Record { number, at, error }) => {
            Made::NoRecord { number, at, refusal: error.number() }
        }
    }
}

#[test]
fn random_runs_are_the_same_as_words() {
    let (mut texts, mut rooms, mut records) = (0, Vec::new(), Vec::new());
    for index in 0..600 {
        // Input 3 has as many bytes as rehearse reads.
        let most = if index == 3 { u32::MAX } else { 1_000 };
        let input = make_input(5, index, most);
        let expected = expected(&input);
        assert_eq!(found(&input), expected, "{index}");
        match expected {
            Made::Text(text) => {
                let read = Scenario::read(&text).expect("every line is one");
                assert!(bytes_of(&read) == Ok(input), "{index}");
                texts += 1;
            }
            Made::NoRoom(refusal) => rooms.push(refusal),
            Made::NoRecord { refusal, .. } => records.push(refusal),
        }
    }
    rooms.sort_unstable();
    rooms.dedup();
    records.sort_unstable();
    records.dedup();
    assert_eq!((rooms, records), (vec![1, 2, 14], vec![14, 15]));
    assert!(texts > 300, "{texts}");
}
