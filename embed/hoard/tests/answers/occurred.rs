//! Which answers have occurred.

use std::collections::BTreeMap;

use other::generator::{Call, Reply};
use other::Answer;

use crate::common::play::{End, Made, Play, Shown, Why};
use crate::common::said::reads;

/// Every answer and every refusal that a call can give, and every end of a settle. Refusal 1
/// to 3, 14, 15 and 18 are none of them: the room is opened and its cells are in range, and no
/// record is read.
const ALL: [&str; 32] = [
    "ask: refused 17",
    "ask: refused 4",
    "ask: slot",
    "put: done",
    "put: refused 16",
    "put: refused 4",
    "put: refused 5",
    "settle: committed by a Finish",
    "settle: learned by a Read",
    "settle: no next step in phase 3",
    "settle: no command to choose",
    "settle: no ballot left",
    "settle: refused 19",
    "settle: refused 4",
    "step: chosen",
    "step: committed by a Finish",
    "step: done",
    "step: learned by a Read",
    "step: outbid",
    "step: refused 10",
    "step: refused 11",
    "step: refused 12",
    "step: refused 13",
    "step: refused 4",
    "step: refused 5",
    "step: refused 6",
    "step: refused 7",
    "step: refused 8",
    "step: refused 9",
    "step of a settle: chosen",
    "step of a settle: done",
    "step of a settle: outbid",
];

/// How often each has occurred.
#[derive(Default)]
pub struct Occurred(BTreeMap<String, usize>);

impl Occurred {
    /// Counts a run.
    pub fn count(&mut self, play: &Play) {
        let mut last = None;
        for shown in &play.shown {
            match shown {
                Shown::Begins(..) => last = None,
                Shown::Made(made) => {
                    last = Some(made);
                    // The end of the settle follows, and says this.
                    if !(made.settling && commits(made.reply)) {
                        self.add(call_name(made));
                    }
                }
                Shown::Ends(end) => self.add(end_name(*end, last.is_some_and(|made| reads(made)))),
            }
        }
    }

    /// Asserts that all have occurred, and nothing else.
    pub fn check(&self) {
        let missing: Vec<_> = ALL.into_iter().filter(|&name| !self.0.contains_key(name)).collect();
        let unknown: Vec<_> = self.0.keys().filter(|name| !ALL.contains(&name.as_str())).collect();
        assert!(missing.is_empty() && unknown.is_empty(), "{missing:?} {unknown:?} {:?}", self.0);
    }

    fn add(&mut self, name: String) {
        *self.0.entry(name).or_default() += 1;
    }
}

/// The name of a call and its answer.
fn call_name(made: &Made) -> String {
    let call = match made.call {
        Call::Ask { .. } => "ask",
        Call::Put { .. } => "put",
        Call::Step(_) if made.settling => "step of a settle",
        Call::Step(_) => "step",
    };
    let answer = match made.reply {
        Reply::Slot(_) => "slot".to_string(),
        Reply::Answer(Answer::Done) => "done".to_string(),
        Reply::Answer(Answer::Outbid(_)) => "outbid".to_string(),
        Reply::Answer(Answer::Chosen(_)) => "chosen".to_string(),
        Reply::Answer(Answer::Committed(_)) if reads(made) => "learned by a Read".to_string(),
        Reply::Answer(Answer::Committed(_)) => "committed by a Finish".to_string(),
        Reply::Answer(Answer::Refused(number)) => format!("refused {number}"),
    };
    format!("{call}: {answer}")
}

/// Whether a step committed.
fn commits(reply: Reply) -> bool {
    matches!(reply, Reply::Answer(Answer::Committed(_)))
}

/// The name of the end of a settle.
fn end_name(end: End, read: bool) -> String {
    let end = match end {
        End::Settled(..) if read => "learned by a Read".to_string(),
        End::Settled(..) => "committed by a Finish".to_string(),
        End::None(_, Why::Settled) => "no next step in phase 3".to_string(),
        End::None(_, Why::Nothing) => "no command to choose".to_string(),
        End::None(_, Why::Ballot) => "no ballot left".to_string(),
        End::Refused(number, _) => format!("refused {number}"),
    };
    format!("settle: {end}")
}
