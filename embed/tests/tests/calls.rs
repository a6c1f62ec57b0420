//! Ask and Put: among the steps of whole runs, in rooms in range that no run
//! reaches, and on rows that are no room.

use std::collections::BTreeMap;

use other::generator::{any_limits, Call, Caller, Chance, Habits, Reply};
use other::{is_command, judge, limits_of, Sizes};
use tests::hostile::{any_cells, in_range};
use tests::{every_size, numbers, Pair};

/// Calls of a run, and runs in a room of each size: more than a million calls.
const CALLS: u32 = 600;
const RUNS: u32 = 4;

/// Piece 5 enters hoard 1, which every cabinet has.
const COIN: u32 = 66_817;

/// Commands of every room, or of some, and numbers that are none.
const COMMANDS: [u32; 8] = [COIN, 81_724, 147_260, 196_608, 0, 81_725, 196_609, u32::MAX];

/// Numbers beyond every room; the last byte of half of them is not.
const BEYOND: [u32; 6] = [16, 255, 256, 65_537, 1 << 31, u32::MAX];

/// How often each call was answered so: its name, with the number of a refusal.
type Answers = BTreeMap<(&'static str, u32), u64>;

fn count(answers: &mut Answers, call: Call, reply: Reply) {
    let name = match call {
        Call::Step(_) => "step",
        Call::Ask { .. } => "ask",
        Call::Put { .. } => "put",
    };
    *answers.entry((name, reply.refusal().unwrap_or(0))).or_default() += 1;
}

/// Every answer of these calls occurs `least` times or more.
fn all_occur(answers: &Answers, expected: &[(&'static str, u32)], least: u64) {
    for answer in expected {
        let found = answers.get(answer).copied().unwrap_or(0);
        assert!(found >= least, "{answer:?} occurs {found} times");
    }
}

/// What Ask and Put can answer in a room in range.
const IN_RANGE: [(&str, u32); 7] =
    [("ask", 0), ("ask", 4), ("ask", 17), ("put", 0), ("put", 4), ("put", 5), ("put", 16)];

#[test]
fn a_million_calls_in_rooms_of_every_size() {
    let mut answers = Answers::new();
    for (place, sizes) in every_size().enumerate() {
        for turn in 0..RUNS {
            run(sizes, Chance::of_run(41, place as u32 * RUNS + turn), &mut answers);
        }
    }
    let total: u64 = answers.values().sum();
    println!("{total} calls: {answers:?}");
    assert!(total >= 1_000_000);
    all_occur(&answers, &IN_RANGE, 500);
    assert!(answers.keys().all(|&(_, number)| number != 3));
}

fn run(sizes: Sizes, mut chance: Chance, answers: &mut Answers) {
    let (servers, drives, slots) = numbers(sizes);
    let mut pair = Pair::over((0..sizes.length()).map(|_| chance.draw() as u32).collect());
    let limits = any_limits(&mut chance);
    pair.open(servers, drives, slots, limits).expect("the sizes and the limits fit");
    let habits = Habits::any(&mut chance);
    let mut caller = Caller::new(&mut chance, sizes, habits);
    for _ in 0..CALLS {
        let call = caller.next_call(&mut chance, pair.cells());
        let reply = pair.call(call);
        caller.hear(call, reply);
        count(answers, call, reply);
    }
    for server in 0..servers {
        pair.catalogue(server, 64).expect("the room is in range");
    }
}

/// Asks, and puts a number in the slot named: in any room in range it is done if the
/// number is a command there, and refused with 5 if not.
fn ask_then_put(pair: &mut Pair, chance: &mut Chance, server: u32, answers: &mut Answers) {
    let in_range = judge(pair.cells()).is_some();
    let asked = pair.ask(server);
    count(answers, Call::Ask { server }, Reply::of_ask(asked));
    assert_eq!(asked == Err(3), !in_range);
    let slot = asked.unwrap_or(0);
    let command = chance.one_of(&COMMANDS);
    let legal = limits_of(pair.cells()).is_some_and(|limits| is_command(command, limits));
    let answer = pair.put(server, slot, command);
    count(answers, Call::Put { server, slot, command }, Reply::of_put(answer));
    match asked {
        Ok(_) if legal => assert_eq!(answer, Ok(())),
        Ok(_) => assert_eq!(answer, Err(5)),
        Err(_) => assert_eq!(answer == Err(3), !in_range),
    }
}

/// Puts in every slot of a room in range, and beyond it.
fn put_everywhere(pair: &mut Pair, sizes: Sizes, server: u32, answers: &mut Answers) {
    for slot in (0..sizes.slots as u32).chain(BEYOND) {
        let inside = (server as usize) < sizes.servers && (slot as usize) < sizes.slots;
        let free = inside && {
            // A phase other than 3, and no offer.
            let at = sizes.server_at(slot as usize, server as usize);
            pair.cells()[at] != 3 && pair.cells()[at + 4] == 0
        };
        let refused = if inside { 16 } else { 4 };
        let answer = pair.put(server, slot, COIN);
        assert_eq!(answer, if free { Ok(()) } else { Err(refused) });
        let call = Call::Put { server, slot, command: COIN };
        count(answers, call, Reply::of_put(answer));
    }
}

#[test]
fn rooms_in_range_that_no_run_reaches() {
    let mut answers = Answers::new();
    for (place, sizes) in every_size().enumerate() {
        let mut chance = Chance::of_run(43, place as u32);
        for _ in 0..4 {
            let mut pair = Pair::over(in_range(&mut chance, sizes));
            for server in (0..=sizes.servers as u32).chain(BEYOND) {
                ask_then_put(&mut pair, &mut chance, server, &mut answers);
            }
            for server in (0..=sizes.servers as u32).chain([256, u32::MAX]) {
                put_everywhere(&mut pair, sizes, server, &mut answers);
            }
            for server in 0..sizes.servers as u32 {
                assert_eq!(pair.ask(server), Err(17));
            }
        }
    }
    println!("{answers:?}");
    all_occur(&answers, &IN_RANGE, 500);
    assert!(answers.keys().all(|&(_, number)| number != 3));
}

#[test]
fn random_cells() {
    let mut answers = Answers::new();
    for (place, sizes) in every_size().enumerate() {
        let mut chance = Chance::of_run(47, place as u32);
        for wrong in [1, 3, 20, 1000] {
            for _ in 0..10 {
                let mut pair = Pair::over(any_cells(&mut chance, sizes, wrong));
                let server = chance.below(6);
                ask_then_put(&mut pair, &mut chance, server, &mut answers);
            }
        }
    }
    println!("{answers:?}");
    all_occur(&answers, &[("ask", 3), ("put", 3)], 5_000);
    all_occur(&answers, &IN_RANGE, 50);
}
