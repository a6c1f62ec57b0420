//! Whole runs in rooms of every size, with any limits, compared after every call.

use std::collections::BTreeMap;

use other::generator::{any_limits, Chance, Driver, Habits, Learning, Taken};
use other::{Answer, Sizes};
use tests::{every_size, numbers, Pair};

/// Steps of a run, and runs in a room of each size: more than four million steps.
const STEPS: u32 = 600;
const RUNS: u32 = 16;

/// How often each answer occurs: a word, with the number of a refusal.
type Answers = BTreeMap<(&'static str, u32), u64>;

#[test]
fn millions_of_steps_in_rooms_of_every_size() {
    let mut answers = Answers::new();
    let mut learning = Learning::default();
    for (place, sizes) in every_size().enumerate() {
        for turn in 0..RUNS {
            let chance = Chance::of_run(7, place as u32 * RUNS + turn);
            run(sizes, chance, &mut answers, &mut learning);
        }
    }
    let total: u64 = answers.values().sum();
    println!("{total} steps: {answers:?}\n{}", learning.report());
    assert!(total >= 4_000_000);
    // Every answer that a step in a room in range can have.
    let expected = ["done", "outbid", "chosen", "committed"].map(|word| (word, 0));
    let refusals = (4..=13).map(|number| ("refused", number));
    for answer in expected.into_iter().chain(refusals) {
        assert!(answers.contains_key(&answer), "no step was answered with {answer:?}");
    }
    // What is settled is often told, and learned whatever the ballots are.
    assert!(learning.told > 100_000 && learning.learned > 40_000);
    assert!(learning.not_outbid > 10_000 && learning.not_refused > 300);
    assert!(learning.untold > 50_000 && learning.recalled > 50_000);
    // And yet it is often settled anew.
    let committed = answers[&("committed", 0)];
    assert!(committed - learning.learned > 80_000 && answers[&("outbid", 0)] > 40_000);
}

fn run(sizes: Sizes, mut chance: Chance, answers: &mut Answers, learning: &mut Learning) {
    let (servers, drives, slots) = numbers(sizes);
    let mut pair = Pair::over((0..sizes.length()).map(|_| chance.draw() as u32).collect());
    let limits = any_limits(&mut chance);
    pair.open(servers, drives, slots, limits).expect("the sizes and the limits fit");
    let habits = Habits::any(&mut chance);
    let mut driver = Driver::new(&mut chance, sizes, habits);
    let mut before = pair.cells().to_vec();
    for step in 0..STEPS {
        let next = driver.next_step(&mut chance, pair.cells());
        before.copy_from_slice(pair.cells());
        let answer = pair.step(next);
        driver.hear(answer);
        learning.count(&Taken { sizes, before: &before, step: next, answer });
        *answers.entry(name(answer)).or_default() += 1;
        if step % 40 == 39 {
            catalogues(&pair, servers);
        }
    }
}

/// The catalogues of all servers, and of one beyond the room.
fn catalogues(pair: &Pair, servers: u32) {
    for server in 0..servers {
        pair.catalogue(server, 64).expect("the room is in range");
    }
    assert_eq!(pair.catalogue(servers, 64), Err(4));
}

fn name(answer: Answer) -> (&'static str, u32) {
    match answer {
        Answer::Done => ("done", 0),
        Answer::Outbid(_) => ("outbid", 0),
        Answer::Chosen(_) => ("chosen", 0),
        Answer::Committed(_) => ("committed", 0),
        Answer::Refused(number) => ("refused", number),
    }
}
