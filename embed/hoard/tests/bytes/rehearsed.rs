//! Rehearse comes to the same answers and the same counts with the bytes of a scenario as the
//! program with the scenario.

use hoard::run::{Event, Reply, Run};
use hoard::scenario::{Call, Scenario};
use other::generator::Chance;
use other::rehearse;
use register::Answer;

use crate::common::drawn;
use crate::common::play::Play;
use crate::common::program::done;

/// How many calls and settles a scenario has.
const CALLS: u32 = 120;

/// Random runs with puts, asks and settles, in rooms with the usual limits, one in two of which
/// names them.
pub fn plays(seed: u64, count: usize) -> impl Iterator<Item = Play> {
    (0..count).map(move |index| {
        let mut chance = Chance::of_run(seed, index as u32);
        // 448 has no factor in common with 165, so that neighbours differ.
        let sizes = drawn::sizes(index * 165 % drawn::SIZES);
        let limits = chance.one_in(2).then_some(other::USUAL_LIMITS);
        Play::random(&mut chance, sizes, limits.as_ref(), CALLS)
    })
}

/// The lines that rehearse prints for the steps of a run, as the program has them.
fn step_lines(run: &Run) -> Vec<String> {
    let lines = run.events.iter().filter_map(step_answer).enumerate();
    lines.map(|(index, answer)| format!("{index} {answer}")).collect()
}

/// The answer of a step, or of a put that is accepted, which is one.
fn step_answer(event: &Event) -> Option<String> {
    match (event.call, event.reply) {
        (Call::Ask { .. }, _) | (Call::Put { .. }, Reply::Refused(_)) => None,
        (_, Reply::Refused(error)) => Some(format!("refused {}", error.number())),
        (_, Reply::Answer(Answer::Done)) => Some("done 0".to_string()),
        (_, Reply::Answer(Answer::Outbid(ballot))) => Some(format!("outbid {ballot}")),
        (_, Reply::Answer(Answer::Chosen(command))) => Some(format!("chosen {command}")),
        (_, Reply::Answer(Answer::Committed(command))) => Some(format!("committed {command}")),
        (call, reply) => panic!("{call:?} {reply:?}"),
    }
}

/// The lines of the servers that `hoard run` prints, as rehearse prints them.
fn server_lines(text: &str) -> Vec<String> {
    let printed = String::from_utf8(done(&["run", "-"], text.as_bytes()));
    let printed = printed.expect("what is printed is text");
    let lines = printed.lines().filter(|line| line.starts_with("server "));
    lines.map(|line| line.replace([':', ','], "")).collect()
}

#[test]
fn rehearse_comes_to_the_same() {
    let (mut steps, mut left_out, mut taken) = (0, 0, 0);
    for play in plays(8, 300) {
        let bytes = done(&["bytes", "-"], play.text.as_bytes());
        assert_eq!(bytes, play.bytes(), "{}", play.text);
        let printed = String::from_utf8(rehearse(&bytes)).expect("rehearse prints text");
        let scenario = Scenario::read(&play.text).expect("the text has no mistake");
        let run = Run::of(&scenario, |_| {}).expect("the room is opened");
        let mut lines = step_lines(&run);
        steps += lines.len();
        left_out += run.events.len() - lines.len();
        let servers = server_lines(&play.text);
        assert_eq!(servers.len(), play.sizes.servers);
        taken += servers.iter().filter(|line| !line.contains(" taken 0 ")).count();
        lines.extend(servers);
        assert_eq!(printed.lines().collect::<Vec<_>>(), lines, "{}", play.text);
    }
    assert!(steps > 30_000 && left_out > 1_000 && taken > 300, "{steps} {left_out} {taken}");
}

/// The scenario of the bytes has a step in place of each put and settle, and the same bytes.
#[test]
fn the_words_of_the_bytes_have_the_same_bytes() {
    for play in plays(9, 60) {
        let bytes = play.bytes();
        let words = done(&["words", "-"], &bytes);
        assert_eq!(done(&["bytes", "-"], &words), bytes);
        let words = String::from_utf8(words).expect("words are text");
        assert!(!words.contains("put ") && !words.contains("settle "), "{words}");
    }
}
