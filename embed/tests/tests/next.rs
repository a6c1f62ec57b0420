//! Which step is next: in rooms of runs, in rooms in range that no run reaches, on rows that
//! are no room; its record in buffers of every length; and that it is accepted.

use std::collections::BTreeMap;

use other::generator::{any_limits, Chance, Driver, Habits};
use other::{Sizes, USUAL_LIMITS};
use tests::hostile::{any_cells, in_range};
use tests::{every_size, look, numbers, used, Look, Pair};

/// The longest buffer that is lent for a record, which has at most 8 bytes.
const LONGEST: usize = 16;

/// Numbers beyond every room; the last byte of half of them is not.
const BEYOND: [u32; 6] = [16, 255, 256, 65_537, 1 << 31, u32::MAX];

/// How often each was found.
type Found = BTreeMap<Look, u64>;

/// All that can be found in a room in range, but for a place beyond it.
const ALL: [Look; 10] = [
    Look::Step("recall"),
    Look::Step("rejoin"),
    Look::Step("write"),
    Look::Step("read"),
    Look::Step("finish"),
    Look::Settled,
    Look::Stuck(11),
    Look::Stuck(12),
    Look::Stuck(13),
    Look::Refused(19),
];

/// Each of these was found `least` times or more, and nothing that is not among `ALL`.
fn all_found(found: &Found, expected: &[Look], least: u64) {
    println!("{found:?}");
    for look in expected {
        let times = found.get(look).copied().unwrap_or(0);
        assert!(times >= least, "{look:?} is found {times} times");
    }
    assert!(found.keys().all(|look| ALL.contains(look)), "{found:?}");
}

/// Looks at every server and slot, each with a buffer of some length.
fn look_everywhere(pair: &mut Pair, chance: &mut Chance, sizes: Sizes, found: &mut Found) {
    for server in 0..sizes.servers {
        for slot in 0..sizes.slots {
            let length = chance.place(LONGEST + 1);
            *found.entry(look(pair, sizes, (server, slot), length)).or_default() += 1;
        }
    }
}

#[test]
fn rooms_in_range_that_no_run_reaches() {
    let mut found = Found::new();
    for (place, sizes) in every_size().enumerate() {
        let mut chance = Chance::of_run(53, place as u32);
        for _ in 0..20 {
            let mut pair = Pair::over(in_range(&mut chance, sizes));
            // In half of the rooms every drive is on, for else half have no majority.
            if chance.one_in(2) {
                pair.set(3, 0);
            }
            look_everywhere(&mut pair, &mut chance, sizes, &mut found);
        }
    }
    all_found(&found, &ALL, 100);
}

#[test]
fn rooms_of_runs() {
    let mut found = Found::new();
    for (place, sizes) in every_size().enumerate() {
        let mut chance = Chance::of_run(59, place as u32);
        let (servers, drives, slots) = numbers(sizes);
        let mut pair = Pair::over(vec![0; sizes.length()]);
        let limits = any_limits(&mut chance);
        pair.open(servers, drives, slots, limits).expect("the sizes and the limits fit");
        let habits = Habits::any(&mut chance);
        let mut driver = Driver::new(&mut chance, sizes, habits);
        for step in 0..300 {
            let next = driver.next_step(&mut chance, pair.cells());
            driver.hear(pair.step(next));
            if step % 20 == 19 {
                look_everywhere(&mut pair, &mut chance, sizes, &mut found);
            }
        }
    }
    all_found(&found, &ALL, 100);
}

/// A place in some rooms of each size, with buffers of each length.
#[test]
fn buffers_of_every_length() {
    let mut found = Found::new();
    for (place, sizes) in every_size().enumerate() {
        let mut chance = Chance::of_run(61, place as u32);
        for turn in 0..6 {
            let mut pair = Pair::over(in_range(&mut chance, sizes));
            if turn > 0 {
                pair.set(3, 0);
            }
            let at = (chance.place(sizes.servers), chance.place(sizes.slots));
            for length in 0..=LONGEST {
                *found.entry(look(&mut pair, sizes, at, length)).or_default() += 1;
            }
        }
    }
    all_found(&found, &ALL, 2 * (LONGEST as u64 + 1));
}

/// Every set of drives of every number of them: where the first majority is recalled, the
/// server rejoins.
#[test]
fn every_set_of_drives() {
    let mut refused = 0;
    for drives in 1..=7 {
        let sizes = Sizes { servers: 1, drives, slots: 1 };
        for off in 0..1 << drives {
            let mut pair = Pair::over(vec![0; sizes.length()]);
            pair.open(1, drives as u32, 1, USUAL_LIMITS).expect("the sizes fit");
            pair.set(3, off);
            let mut recalled = 0;
            while look(&mut pair, sizes, (0, 0), LONGEST) == Look::Step("recall") {
                let step = pair.next(0, 0, LONGEST).ok().flatten().expect("a step is next");
                pair.step(step);
                recalled += 1;
            }
            match used(off, drives) {
                Some(marks) => {
                    assert_eq!(look(&mut pair, sizes, (0, 0), 0), Look::Step("rejoin"));
                    assert_eq!(recalled, marks.count_ones());
                }
                None => {
                    assert_eq!(look(&mut pair, sizes, (0, 0), 0), Look::Refused(19));
                    refused += 1;
                }
            }
        }
    }
    assert_eq!(refused, 127);
}

/// Rows that are no room come first, then places beyond it, then the drives.
#[test]
fn refusals_in_order() {
    let mut refused = BTreeMap::new();
    for (place, sizes) in every_size().enumerate() {
        let mut chance = Chance::of_run(67, place as u32);
        for wrong in [0, 1, 3, 20, 1000] {
            let mut pair = Pair::over(any_cells(&mut chance, sizes, wrong));
            let in_range = other::judge(pair.cells()).is_some();
            for far in BEYOND.into_iter().chain([sizes.servers as u32, 0]) {
                for slot in BEYOND.into_iter().chain([sizes.slots as u32, 0]) {
                    let next = pair.next(far, slot, 8);
                    let inside = far == 0 && slot == 0;
                    assert_eq!(next == Err(3), !in_range);
                    assert_eq!(next == Err(4), in_range && !inside);
                    *refused.entry(next.err().unwrap_or(0)).or_insert(0) += 1;
                }
            }
        }
    }
    println!("{refused:?}");
    assert!(refused[&3] > 10_000 && refused[&4] > 10_000);
    assert!(refused[&19] > 50 && refused[&0] > 50);
}
