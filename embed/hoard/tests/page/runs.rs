//! The runs that are drawn.

use std::path::Path;

use other::generator::{Call, Chance, Reply};
use other::{Answer, Sizes, Step};

use crate::browser::Browser;
use crate::common::folder::Folder;
use crate::common::places::places;
use crate::common::play::{Made, Play};
use crate::common::program::done;

/// The events that are shown.
pub const SHOWN: &str = ".view:not([hidden]) .event";

/// A random run of so many calls in a small room.
pub fn run(seed: u64, number: u32, sizes: Sizes, count: u32) -> Play {
    let mut chance = Chance::of_run(seed, number);
    Play::random(&mut chance, sizes, None, count)
}

/// Some runs that have everything in them between them.
pub fn several(seed: u64) -> Vec<Play> {
    let sizes = [(2, 3, 1), (3, 2, 2), (2, 1, 1), (3, 3, 3)];
    let plays = (0..).zip(sizes).map(|(number, (servers, drives, slots))| {
        run(seed, number, Sizes { servers, drives, slots }, 70)
    });
    let plays: Vec<Play> = plays.collect();
    assert_whole(&plays);
    plays
}

/// That each kind of mark occurs.
fn assert_whole(plays: &[Play]) {
    let made: Vec<&Made> = plays.iter().flat_map(Play::made).collect();
    let has = |name: &str, test: &dyn Fn(&Made) -> bool| {
        assert!(made.iter().any(|made| test(made)), "no call of the runs is {name}");
    };
    let answer = |made: &Made| match made.reply {
        Reply::Answer(answer) => Some(answer),
        Reply::Slot(_) => None,
    };
    has("refused", &|made| made.reply.refusal().is_some());
    has("outbid", &|made| matches!(answer(made), Some(Answer::Outbid(_))));
    has("chosen", &|made| matches!(answer(made), Some(Answer::Chosen(_))));
    has("committed", &|made| matches!(answer(made), Some(Answer::Committed(_))) && !read(made));
    has("learned", &|made| matches!(answer(made), Some(Answer::Committed(_))) && read(made));
    has("a fail", &|made| matches!(made.call, Call::Step(Step::Fail { .. })));
    has("a drive off", &|made| made.after.off != 0);
    has("an ask", &|made| matches!(made.reply, Reply::Slot(_)));
    has("a put", &|made| matches!(made.call, Call::Put { .. }));
}

/// Whether a call is a Read.
fn read(made: &Made) -> bool {
    matches!(made.call, Call::Step(Step::Read { .. }))
}

/// The page of a run in the browser.
pub fn open(name: &str, text: &str) -> Browser {
    let folder = Folder::new(&format!("page-{name}"));
    let (scenario, page) = (folder.with("run.txt", text), folder.file("run.html"));
    done(&["show", &scenario, "-o", &page], b"");
    Browser::open(Path::new(&page))
}

/// The slots that a run is about.
pub fn slots(play: &Play) -> Vec<u32> {
    let mut slots: Vec<u32> = play.made().filter_map(slot).collect();
    slots.sort_unstable();
    slots.dedup();
    slots.retain(|&slot| (slot as usize) < play.sizes.slots);
    slots
}

/// The slot that a call is about, for an Ask the one that it named.
pub fn slot(made: &Made) -> Option<u32> {
    match made.reply {
        Reply::Slot(slot) => Some(slot),
        _ => places(made.call).slot,
    }
}
