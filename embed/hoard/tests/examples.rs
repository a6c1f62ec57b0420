//! What stands behind `# ->` in each file of `examples` is what the other implementation answers
//! there, and the bytes of a scenario are those of what it does.

mod common;

use std::fs;
use std::path::Path;

use hoard::bytes::{bytes_of, NoBytes};
use hoard::scenario::{self, Scenario, Spoken};
use other::generator::Call;
use other::{refusal, Sizes, USUAL_LIMITS};
use register::Record;

use common::play::Play;
use common::said::answers;

/// An example in words.
struct Example {
    name: String,
    text: String,
    scenario: Scenario,
}

impl Example {
    /// The example of a file.
    fn read(file: &Path) -> Example {
        let name = file.file_name().unwrap_or_default().to_string_lossy().into_owned();
        let text = fs::read_to_string(file).unwrap_or_else(|error| panic!("{name}: {error}"));
        let scenario = Scenario::read(&text).unwrap_or_else(|mistake| panic!("{name}:{mistake}"));
        Example { name, text, scenario }
    }

    /// What stands behind `# ->` in each line of a call, and in the lines without one.
    fn comments(&self) -> Vec<&str> {
        let lines: Vec<&str> = self.text.lines().collect();
        let calls = self.scenario.lines.iter().map(|&(line, _)| lines[line - 1]);
        let alone = lines.iter().copied().filter(|line| line.starts_with('#'));
        let calls = calls.map(|line| comment(line).unwrap_or(""));
        calls.chain(alone.filter_map(comment)).collect()
    }

    /// Plays it with the other implementation.
    fn played(&self) -> Play {
        let scenario::Sizes { servers, drives, slots } = self.scenario.sizes;
        let sizes = Sizes::fit(servers, drives, slots).expect("sizes that fit");
        let limits = self.scenario.limits.map(|(_, own)| own.numbers());
        let mut play = Play::new(sizes, limits.as_ref());
        for &(_, spoken) in &self.scenario.lines {
            match spoken {
                Spoken::Settle { server, slot } => play.settle(server, slot),
                Spoken::Call(call) => _ = play.call(other_call(call)),
            }
        }
        play
    }
}

/// A call as the other implementation has it.
fn other_call(call: scenario::Call) -> Call {
    match call {
        scenario::Call::Step(step) => {
            let record = Record::of(step);
            let (step, _) = other::read_record(record.bytes()).expect("it is a record");
            Call::Step(step)
        }
        scenario::Call::Ask { server } => Call::Ask { server: server.into() },
        scenario::Call::Put { server, slot, command } => {
            Call::Put { server: server.into(), slot: slot.into(), command }
        }
    }
}

/// What stands behind `# ->`.
fn comment(line: &str) -> Option<&str> {
    line.split_once("# -> ").map(|(_, comment)| comment)
}

/// All examples in words.
fn examples() -> Vec<Example> {
    let folder = Path::new(env!("CARGO_MANIFEST_DIR")).join("../../examples");
    let files = fs::read_dir(folder).expect("the folder examples");
    let files = files.map(|file| file.expect("a file").path());
    let texts = files.filter(|file| file.extension().is_some_and(|end| end == "txt"));
    let examples: Vec<Example> = texts.map(|file| Example::read(&file)).collect();
    assert!(!examples.is_empty(), "there are no examples");
    examples
}

#[test]
fn the_comments_are_the_answers() {
    for example in examples() {
        assert_eq!(example.comments(), answers(&example.played()), "{}", example.name);
    }
}

/// An example with own limits has no bytes.
#[test]
fn the_bytes_are_those_of_the_run() {
    for example in examples() {
        let (name, bytes) = (&example.name, bytes_of(&example.scenario));
        if example.scenario.room_limits().numbers() == USUAL_LIMITS {
            assert_eq!(bytes, Ok(example.played().bytes()), "{name}");
        } else {
            assert!(matches!(bytes, Err(NoBytes::Line(_))), "{name}");
        }
    }
}

/// The examples show every kind of answer, and the refusals that a reader meets first.
#[test]
fn the_examples_show_every_answer() {
    let examples = examples();
    let comments: Vec<&str> = examples.iter().flat_map(Example::comments).collect();
    let answers = ["done", "outbid by", "chosen", "committed", "learned", "slot"];
    for begin in answers.into_iter().chain(["settled after", "no next step"]) {
        assert!(comments.iter().any(|comment| comment.starts_with(begin)), "none is {begin}");
    }
    let refusals = [
        refusal::NOT_A_COMMAND,
        refusal::PHASE,
        refusal::DRIVE_OFF,
        refusal::NOT_WRITTEN,
        refusal::NO_MAJORITY,
        refusal::NOT_ABOVE,
        refusal::NOT_FREE,
        refusal::NO_MAJORITY_ON,
    ];
    for number in refusals {
        let end = format!(" ({number})");
        assert!(comments.iter().any(|comment| comment.ends_with(&end)), "none is refused {number}");
    }
}
