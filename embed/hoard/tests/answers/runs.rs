//! Random runs in rooms of all sizes: each call is answered, and leaves the records, as the
//! other implementation has it, and the catalogues at the end are the same.

use std::convert::Infallible;

use hoard::run::{Ending, Event, Moment, NoNext, Player, Reply as Replied, Run, Seen as SeenHere};
use hoard::scenario::Scenario;
use other::generator::{Chance, Reply};
use other::{catalogue, Answer, PIECES};
use register::Answer as Answered;

use crate::common::play::{End, Made, Play, Seen, Shown, Why};
use crate::common::program::done;
use crate::common::said::lines;
use crate::common::{drawn, speech};
use crate::occurred::Occurred;

/// How many calls and settles a run has.
const CALLS: u32 = 300;

/// A random run in a room of each size.
fn plays(seed: u64) -> impl Iterator<Item = Play> {
    (0..drawn::SIZES).map(move |number| {
        let mut chance = Chance::of_run(seed, number as u32);
        let limits = drawn::limits_or_none(&mut chance);
        Play::random(&mut chance, drawn::sizes(number), limits.as_ref(), CALLS)
    })
}

#[test]
fn each_event_is_as_the_other_implementation_has_it() {
    let mut occurred = Occurred::default();
    for play in plays(1) {
        let scenario = Scenario::read(&play.text).expect("the text has no mistake");
        let run = Run::of(&scenario, |_| {}).expect("the room is opened");
        let moments = moments(&scenario);
        let made: Vec<&Event> = moments.iter().filter_map(event).collect();
        assert_eq!(run.events.iter().collect::<Vec<_>>(), made);
        same_moments(&moments, &play);
        same_catalogues(&run, &play);
        assert_eq!(run.summary(), summary(&play));
        occurred.count(&play);
    }
    occurred.check();
}

#[test]
fn the_program_prints_what_the_other_implementation_answers() {
    let mut occurred = Occurred::default();
    for play in plays(2) {
        let printed = String::from_utf8(done(&["run", "-"], play.text.as_bytes()));
        let printed = printed.expect("what is printed is text");
        let expected = lines(&play);
        let differs =
            expected.iter().zip(printed.lines()).find(|(line, found)| line.as_str() != *found);
        assert_eq!(differs, None, "{}", play.text);
        assert_eq!(expected.len(), printed.lines().count());
        occurred.count(&play);
    }
    occurred.check();
}

/// Everything that a player shows.
fn moments(scenario: &Scenario) -> Vec<Moment> {
    let mut player = Player::open(scenario).expect("the room is opened");
    let mut moments = Vec::new();
    for &(line, spoken) in &scenario.lines {
        let Ok(()) = player.play(line, spoken, &mut |moment| {
            moments.push(moment);
            Ok::<(), Infallible>(())
        });
    }
    moments
}

/// The call that a moment shows.
fn event(moment: &Moment) -> Option<&Event> {
    match moment {
        Moment::Made(event) => Some(event),
        _ => None,
    }
}

/// Asserts that these moments are those that are to be shown.
fn same_moments(moments: &[Moment], play: &Play) {
    assert_eq!(moments.len(), play.shown.len(), "{}", play.text);
    let mut number = 0;
    for (moment, shown) in moments.iter().zip(&play.shown) {
        number += usize::from(event(moment).is_some());
        same_moment(moment, shown, number);
    }
}

/// Asserts that a moment is the one that is to be shown.
fn same_moment(moment: &Moment, shown: &Shown, number: usize) {
    match (moment, shown) {
        (&Moment::Begins { server, slot }, &Shown::Begins(own, place)) => {
            assert_eq!((server, slot), (own, place));
        }
        (Moment::Made(event), Shown::Made(made)) => same_event(event, made, number),
        (Moment::Ends(ending), Shown::Ends(end)) => same_end(ending, *end),
        _ => panic!("{moment:?} {shown:?}"),
    }
}

/// Asserts that an event is the call that was made.
fn same_event(event: &Event, made: &Made, number: usize) {
    let words = speech::call(made.call).expect("only calls in words are made");
    assert_eq!((event.number, event.line, event.call.to_string()), (number, made.line, words));
    let reply = match event.reply {
        Replied::Answer(answer) => Reply::Answer(answer_of(answer)),
        Replied::Slot(slot) => Reply::Slot(slot),
        Replied::Refused(error) => Reply::Answer(Answer::Refused(error.number())),
    };
    assert_eq!(reply, made.reply, "{event:?}");
    assert_eq!(seen(&event.before), made.before, "{event:?}");
    assert_eq!(seen(&event.after), made.after, "{event:?}");
}

/// An answer of the library as one of the other implementation.
fn answer_of(answer: Answered) -> Answer {
    match answer {
        Answered::Done => Answer::Done,
        Answered::Outbid(ballot) => Answer::Outbid(ballot),
        Answered::Chosen(command) => Answer::Chosen(command),
        Answered::Committed(command) => Answer::Committed(command),
        other => panic!("{other:?} is no answer"),
    }
}

/// What an event concerns, as cells.
fn seen(here: &SeenHere) -> Seen {
    let record = |server: &register::Server| {
        let &register::Server { phase, own, offer, top, seenbal, seeninp, .. } = server;
        let marks = [server.written, server.read, server.agreed];
        let [written, read, agreed] = marks;
        let register::Own { mbal, bal, inp, .. } = own;
        [phase, mbal, bal, inp, offer, top, seenbal, seeninp, written, read, agreed]
    };
    Seen {
        off: here.off,
        servers: here.servers.iter().map(|(slot, server)| (*slot, record(server))).collect(),
        block: here.block.map(|block| [block.mbal, block.bal, block.inp, block.done]),
    }
}

/// Asserts that a settle ended so.
fn same_end(ending: &Ending, end: End) {
    match (ending, end) {
        (Ending::Settled { steps, command }, End::Settled(count, value)) => {
            assert_eq!((*steps, *command), (count, value));
        }
        (Ending::NoNext { steps, why }, End::None(count, expected)) => {
            let why = match why {
                NoNext::Settled => Why::Settled,
                NoNext::NothingOffered => Why::Nothing,
                NoNext::NoBallot => Why::Ballot,
            };
            assert_eq!((*steps, why), (count, expected));
        }
        (Ending::Refused { error, .. }, End::Refused(number, _)) => {
            assert_eq!(error.number(), number);
        }
        _ => panic!("{ending:?} {end:?}"),
    }
}

/// Asserts that every server's catalogue at the end is the same.
fn same_catalogues(run: &Run, play: &Play) {
    assert_eq!(run.catalogues.len(), play.sizes.servers);
    for (server, found) in run.catalogues.iter().enumerate() {
        let mut cells = [0; PIECES];
        let counts = catalogue(&play.room, server as u32, &mut cells);
        assert_eq!((Ok((found.taken, found.skipped)), found.cells), (counts, cells));
    }
}

/// How many calls were made, refused and answered committed.
fn summary(play: &Play) -> String {
    let calls = play.made().count();
    let refused = play.made().filter(|made| made.reply.refusal().is_some()).count();
    let commits = |made: &&Made| matches!(made.reply, Reply::Answer(Answer::Committed(_)));
    format!("{calls} calls, {refused} refused, {} committed", play.made().filter(commits).count())
}
