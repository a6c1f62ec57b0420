//! Demand 3 on simulated runs of steps, Asks and Puts: for each slot a one-value
//! machine, fed with the calls and answers alone, has the offers and outputs of
//! the room after every call; and every catalogue is made of the first commands
//! of one list. Reads that learn what is settled stand anywhere in the runs.

mod check;
mod machine;
mod seen;

use check::Check;
use other::generator::{any_limits, Call, Caller, Chance, Habits};
use other::{judge, limits_of, open, room_length, Sizes};
use seen::Seen;

/// A run of `count` calls in a new room with any limits, checked at every call.
/// What is seen is added to `seen`.
fn run(chance: &mut Chance, sizes: Sizes, habits: Habits, count: u32, seen: Seen) -> Seen {
    let (servers, drives, slots) = (sizes.servers as u32, sizes.drives as u32, sizes.slots as u32);
    let mut room = vec![0; room_length(servers, drives, slots) as usize];
    let limits = any_limits(chance);
    assert_eq!(open(&mut room, servers, drives, slots, &limits), Ok(()));
    let mut caller = Caller::new(chance, sizes, habits);
    let mut check = Check::new(sizes, limits, seen);
    for _ in 0..count {
        let before = room.clone();
        let call = caller.next_call(chance, &room);
        let reply = call.make(&mut room);
        caller.hear(call, reply);
        assert!(judge(&room) == Some(sizes), "{call:?} left the range");
        assert_eq!(limits_of(&room), Some(&limits), "{call:?}");
        if matches!(call, Call::Ask { .. }) || reply.refusal().is_some() {
            assert_eq!(room, before, "{call:?}: {reply:?}");
        }
        check.feed(call, reply);
        check.count(&before, call, reply);
        check.compare(&room);
        check.compare_catalogues(&room);
    }
    check.seen
}

/// Rooms of several sizes: servers, drives, slots.
const ROOMS: [(usize, usize, usize); 10] = [
    (1, 1, 1),
    (1, 3, 3),
    (2, 1, 2),
    (2, 2, 2),
    (2, 3, 1),
    (2, 3, 4),
    (3, 2, 1),
    (3, 3, 2),
    (4, 4, 1),
    (4, 7, 2),
];

/// Rooms with an even number of drives.
const EVEN: [(usize, usize, usize); 6] =
    [(2, 2, 1), (3, 2, 2), (4, 2, 1), (2, 4, 1), (3, 4, 1), (2, 6, 1)];

/// Runs in each of the rooms, 500 calls each, with habits that `set` has changed.
fn simulate(seed: u64, rooms: &[(usize, usize, usize)], runs: u32, set: fn(&mut Habits)) -> Seen {
    let mut chance = Chance::new(seed);
    let mut seen = Seen::default();
    for &(servers, drives, slots) in rooms {
        for _ in 0..runs {
            let mut habits = Habits::any(&mut chance);
            set(&mut habits);
            seen = run(&mut chance, Sizes { servers, drives, slots }, habits, 500, seen);
        }
    }
    println!("{seen:?}");
    seen
}

#[test]
fn servers_that_follow_the_protocol_agree() {
    let seen = simulate(1, &ROOMS, 60, |_| {});
    assert!(seen.calls == 300_000 && seen.longest_list == 4);
    assert!(seen.committed > 5_000 && seen.again > 2_000);
    assert!(seen.outbid > 2_000 && seen.failed > 1_000 && seen.refused > 10_000);
    assert!(seen.struck > 1_000);
    assert!(seen.learning.learned > 5_000 && seen.learning.least() > 10);
    assert!(u64::from(seen.again) > seen.learning.learned + 5_000);
    assert!(seen.least_of_asks_and_puts() >= 100 && seen.puts.settled >= 100);
}

#[test]
fn servers_that_do_anything_agree() {
    let seen = simulate(2, &ROOMS, 40, |habits| habits.noise = 700);
    assert!(seen.calls == 200_000);
    assert!(seen.committed > 500 && seen.again > 200);
    assert!(seen.outbid > 500 && seen.failed > 1_000 && seen.refused > 10_000);
    assert!(seen.learning.learned > 1_000 && seen.learning.least() > 10);
    assert!(seen.least_of_asks_and_puts() >= 100);
}

#[test]
fn servers_agree_where_half_of_the_drives_goes_off_and_another_half() {
    let seen = simulate(3, &EVEN, 80, |habits| {
        habits.half_off = true;
        habits.switches = 30;
        habits.failures = habits.failures.max(8);
    });
    assert!(seen.calls == 240_000 && seen.halves.least() >= 500);
    assert!(seen.committed > 5_000 && seen.again > 2_000);
    assert!(seen.outbid > 2_000 && seen.failed > 1_000);
    assert!(seen.learning.learned > 5_000 && seen.learning.least() > 10);
    assert!(seen.least_of_asks_and_puts() >= 100);
}
