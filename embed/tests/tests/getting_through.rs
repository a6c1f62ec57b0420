//! A server alone gets through: it fails, offers a command, and follows its next step, in any
//! room in range. Where no mbal in the slot is above 999,990 it commits within the bound. From
//! any other state it comes to an end too.

use std::collections::BTreeMap;

use other::generator::{Chance, Driver, Habits};
use other::{most_steps, Answer, Sizes, Step, USUAL_LIMITS};
use register::Room;
use tests::hostile::in_range;
use tests::{every_size, look, numbers, used, Look, Pair};

/// Piece 5 enters hoard 1, which every cabinet has.
const COIN: u32 = 66_817;

/// The largest mbal from which a server surely gets through.
const SURE: u32 = 999_990;

/// How the server went.
#[derive(Default)]
struct Way {
    steps: u32,
    outbid: u32,
    committed: bool,
    learned: bool,
}

/// The server fails, offers the coin and follows its next step to the end.
fn follow(pair: &mut Pair, sizes: Sizes, (server, slot): (usize, usize)) -> Way {
    let (p, s) = (server as u8, slot as u8);
    assert_eq!(pair.step(Step::Fail { server: p }), Answer::Done);
    assert_eq!(pair.step(Step::Offer { server: p, slot: s, number: COIN }), Answer::Done);
    let way = go_on(pair, sizes, (server, slot));
    if !way.committed {
        // No ballot was left, for a Rejoin or for a Read.
        let stuck = look(pair, sizes, (server, slot), 8);
        assert!(matches!(stuck, Look::Stuck(11 | 13)), "{stuck:?}");
    }
    way
}

/// The server follows its next step from the state as it is, until a step commits or there is
/// none. It must come to an end within ten times the bound.
fn go_on(pair: &mut Pair, sizes: Sizes, (server, slot): (usize, usize)) -> Way {
    let limit = 10 * bound(pair.cells()[3], sizes);
    let mut way = Way::default();
    while let Some(next) = pair.next(server as u32, slot as u32, 8).expect("a majority is on") {
        way.steps += 1;
        assert!(way.steps <= limit, "{sizes:?}: no end within {limit} steps");
        match pair.step(next) {
            Answer::Refused(number) => panic!("{next:?} is refused with {number}"),
            Answer::Outbid(_) => way.outbid += 1,
            Answer::Committed(_) => {
                way.committed = true;
                way.learned = matches!(next, Step::Read { .. });
                assert_eq!(look(pair, sizes, (server, slot), 8), Look::Settled);
                return way;
            }
            _ => {}
        }
    }
    way
}

/// The bound for a room in which these drives are off.
fn bound(off: u32, sizes: Sizes) -> u32 {
    let used = used(off, sizes.drives).expect("a majority is on").count_ones();
    most_steps(used, sizes.servers as u32)
}

/// Switches drives until those that are on are a majority.
fn switch_on(pair: &mut Pair, sizes: Sizes) {
    for drive in 0..sizes.drives as u8 {
        if used(pair.cells()[3], sizes.drives).is_none() {
            pair.step(Step::DriveOn { drive });
        }
    }
}

/// The cells of the mbals on the slot's blocks.
fn mbals(sizes: Sizes, slot: usize) -> impl Iterator<Item = usize> {
    (0..sizes.drives).flat_map(move |drive| {
        (0..sizes.servers).map(move |server| sizes.block_at(slot, drive, server))
    })
}

/// A room with a majority on: with any cells in range, or as a run of so many steps, if
/// there are any, leaves it.
fn any_room(chance: &mut Chance, sizes: Sizes, steps: u32) -> Pair {
    let mut pair = Pair::over(in_range(chance, sizes));
    if steps > 0 {
        let (servers, drives, slots) = numbers(sizes);
        pair.open(servers, drives, slots, USUAL_LIMITS).expect("the sizes fit");
        let habits = Habits::any(chance);
        let mut driver = Driver::new(chance, sizes, habits);
        for _ in 0..steps {
            let next = driver.next_step(chance, pair.cells());
            driver.hear(pair.step(next));
        }
    }
    switch_on(&mut pair, sizes);
    pair
}

/// What came out of many ways.
#[derive(Default, Debug)]
struct Ways {
    committed: u32,
    learned: u32,
    stuck: u32,
    outbid: u32,
    steps: u32,
    /// The most steps of a way, in thousandths of its bound.
    most: u32,
}

impl Ways {
    /// Counts one; the server must have got through if it was sure to.
    fn count(&mut self, way: &Way, bound: u32, sure: bool) {
        assert!(way.committed || !sure, "the server did not get through");
        assert!(way.steps <= bound || !sure, "{} steps, and the bound is {bound}", way.steps);
        self.committed += u32::from(way.committed);
        self.learned += u32::from(way.learned);
        self.stuck += u32::from(!way.committed);
        self.outbid += way.outbid;
        self.steps += way.steps;
        self.most = self.most.max(1000 * way.steps / bound);
    }
}

/// The mbals on the slot's blocks rise from block to block, but for the server's own, and
/// no block tells a command.
fn rise(pair: &mut Pair, chance: &mut Chance, sizes: Sizes, (server, slot): (usize, usize)) {
    let mut mbal = chance.from_to(1_000, SURE);
    for (place, cell) in mbals(sizes, slot).enumerate() {
        mbal = (mbal + chance.below(8)).min(SURE);
        let own = place % sizes.servers == server;
        pair.set(cell, if own { chance.below(1_000) } else { mbal });
        pair.set(cell + 3, 0);
    }
}

/// Nine rooms of each size, in three states: with any cells, as a run leaves it, and with ballots
/// that rise.
#[test]
fn it_commits_within_the_bound() {
    let mut ways = Ways::default();
    for (place, sizes) in every_size().enumerate() {
        let mut chance = Chance::of_run(71, place as u32);
        for steps in [0, 200, 0, 0, 200, 0, 0, 200, 0] {
            let mut pair = any_room(&mut chance, sizes, steps);
            let at = (chance.place(sizes.servers), chance.place(sizes.slots));
            for cell in mbals(sizes, at.1) {
                pair.set(cell, pair.cells()[cell].min(SURE));
            }
            if steps == 0 && chance.one_in(2) {
                rise(&mut pair, &mut chance, sizes, at);
            }
            let bound = bound(pair.cells()[3], sizes);
            ways.count(&follow(&mut pair, sizes, at), bound, true);
        }
    }
    println!("{ways:?}");
    assert!(ways.learned > 500 && ways.outbid > 2_000 && ways.most == 1000);
}

/// Ballots near the limit: a server may get through all the same; where it does not, it has
/// no next step, and none that was refused.
#[test]
fn near_the_limit_it_may_get_stuck() {
    let mut ways = Ways::default();
    let mut sure_ways = 0;
    for (place, sizes) in every_size().enumerate() {
        let mut chance = Chance::of_run(73, place as u32);
        for turn in 0..8 {
            let mut pair = any_room(&mut chance, sizes, 0);
            let at = (chance.place(sizes.servers), chance.place(sizes.slots));
            let highest = [SURE, 999_995, 999_999, 1_000_000][turn % 4];
            for cell in mbals(sizes, at.1) {
                pair.set(cell, chance.from_to(highest - 6, highest));
                pair.set(cell + 3, 0);
            }
            let sure = mbals(sizes, at.1).all(|cell| pair.cells()[cell] <= SURE);
            let bound = bound(pair.cells()[3], sizes);
            ways.count(&follow(&mut pair, sizes, at), bound, sure);
            sure_ways += u32::from(sure);
        }
    }
    println!("{ways:?}, {sure_ways} sure");
    assert!(sure_ways > 800 && ways.committed > sure_ways + 500 && ways.stuck > 500);
}

/// In rooms with any cells every server goes on in every slot as it stands, in half of them with
/// ballots that rise. It comes to an end, and so does `settle`, which does the same.
#[test]
fn it_ends_in_any_room() {
    let mut ends = BTreeMap::new();
    let mut steps = 0;
    for (place, sizes) in every_size().enumerate() {
        let mut chance = Chance::of_run(89, place as u32);
        let room = any_room(&mut chance, sizes, 0);
        for at in (0..sizes.servers).flat_map(|p| (0..sizes.slots).map(move |s| (p, s))) {
            let mut pair = Pair::over(room.cells().to_vec());
            if chance.one_in(2) {
                rise(&mut pair, &mut chance, sizes, at);
            }
            let mut settled = Room::over(pair.cells().to_vec());
            let way = go_on(&mut pair, sizes, at);
            steps += way.steps;
            let agreed = pair.cells()[sizes.server_at(at.1, at.0) + 10];
            let command = settled.settle(at.0 as u32, at.1 as u32);
            assert_eq!(command, Ok(way.committed.then_some(agreed)));
            assert!(settled.cells() == pair.cells(), "settle leaves other cells");
            let end = look(&mut pair, sizes, at, 8);
            *ends.entry((way.committed, end)).or_insert(0) += 1;
        }
    }
    println!("{steps} steps, {ends:?}");
    // In phase 3, or stuck for want of a ballot (11, 13) or a command (12); or one committed.
    let none = [Look::Settled, Look::Stuck(11), Look::Stuck(12), Look::Stuck(13)];
    let all = none.map(|end| (false, end)).into_iter().chain([(true, Look::Settled)]);
    assert!(ends.keys().copied().eq(all) && ends.values().all(|&times| times > 100));
    assert!(steps > 50_000);
}

/// One server and one drive that is used need six steps, whatever the room holds.
#[test]
fn one_server_and_one_drive_need_exactly_six_steps() {
    let mut chance = Chance::new(79);
    for slots in 1..=16 {
        for (drives, off) in [(1, 0b0), (2, 0b00), (2, 0b10)] {
            let sizes = Sizes { servers: 1, drives, slots };
            for slot in 0..slots {
                let mut pair = Pair::over(in_range(&mut chance, sizes));
                pair.set(3, off);
                let cell = sizes.block_at(slot, 0, 0);
                pair.set(cell, pair.cells()[cell].min(SURE));
                let way = follow(&mut pair, sizes, (0, slot));
                assert!(way.committed);
                assert_eq!((way.steps, bound(off, sizes)), (6, 6));
            }
        }
    }
}

/// Two servers and one drive need ten, where the other's mbal is not below the own ballot
/// and it has told nothing.
#[test]
fn two_servers_and_one_drive_need_exactly_ten_steps() {
    let mut chance = Chance::new(83);
    for slots in 1..=16 {
        for (drives, off) in [(1, 0b0), (2, 0b00), (2, 0b10)] {
            let sizes = Sizes { servers: 2, drives, slots };
            for (server, slot) in (0..2).flat_map(|server| (0..slots).map(move |s| (server, s))) {
                let mut pair = Pair::over(in_range(&mut chance, sizes));
                pair.set(3, off);
                let (own, other) = (sizes.block_at(slot, 0, server), 1 - server);
                pair.set(own, pair.cells()[own].min(SURE - 2));
                pair.set(sizes.block_at(slot, 0, other), SURE);
                pair.set(sizes.block_at(slot, 0, other) + 3, 0);
                let way = follow(&mut pair, sizes, (server, slot));
                assert!(way.committed && way.outbid == 1);
                assert_eq!((way.steps, bound(off, sizes)), (10, 10));
            }
        }
    }
}

/// Each block that is read has a ballot above the one before it: the longest runs that are
/// known, for each number of servers and each set of drives.
#[test]
fn the_longest_runs_that_are_known() {
    let mut longest = 0;
    for (servers, drives) in (1..=4).flat_map(|n| (1..=7).map(move |d| (n, d))) {
        let sizes = Sizes { servers, drives, slots: 1 };
        for off in 0..1 << drives {
            let Some(marks) = used(off, drives) else { continue };
            let (n, m) = (servers as u32, marks.count_ones());
            let mut pair = Pair::over(vec![0; sizes.length()]);
            pair.open(n, drives as u32, 1, USUAL_LIMITS).expect("the sizes fit");
            pair.set(3, off);
            let server = off as usize % servers;
            let others = (0..servers).filter(|&other| other != server);
            let used = (0..drives).filter(|drive| marks >> drive & 1 == 1);
            let blocks = used.flat_map(|d| others.clone().map(move |q| sizes.block_at(0, d, q)));
            for (rises, cell) in blocks.collect::<Vec<_>>().into_iter().rev().enumerate() {
                pair.set(cell, SURE - n * rises as u32);
            }
            let way = follow(&mut pair, sizes, (server, 0));
            let outbid = n * (n - 1) * m * (m - 1) / 2 + m * (n - 1) * (n + 2) / 2;
            assert!(way.committed && way.steps <= most_steps(m, n));
            assert_eq!(way.steps, 3 + m + 2 * m * n + outbid, "{sizes:?}, off {off:b}");
            longest = longest.max(way.steps);
        }
    }
    assert_eq!(longest, 147);
}
