//! Rows from anywhere: random cells, one cell spoiled, wrong lengths, and rooms in
//! range that no run reaches.

use other::generator::{any_limits, any_step, Chance, Driver, Habits, Learning, Taken};
use other::{is_command, Answer, Sizes, USUAL_LIMITS};
use tests::hostile::{any_cells, any_number, in_range, EDGES};
use tests::{every_size, numbers, Pair};

/// Pieces of the commands that are offered.
const PIECES: [u32; 3] = [5, 17, 63];

/// Piece 5 enters hoard 9.
const COIN: u32 = 66_825;

/// A step of any kind; most name parts of the room.
fn some_step(chance: &mut Chance, pair: &Pair, sizes: Sizes) -> other::Step {
    let slot = chance.place(sizes.slots);
    any_step(chance, pair.cells(), sizes, slot, &PIECES)
}

#[test]
fn rooms_in_range_that_no_run_reaches() {
    let mut refused = [0; 16];
    let mut accepted = 0;
    let mut learning = Learning::default();
    for (place, sizes) in every_size().enumerate() {
        let mut chance = Chance::of_run(11, place as u32);
        for _ in 0..120 {
            let mut pair = Pair::over(in_range(&mut chance, sizes));
            for _ in 0..10 {
                let step = some_step(&mut chance, &pair, sizes);
                let before = pair.cells().to_vec();
                let answer = pair.step(step);
                learning.count(&Taken { sizes, before: &before, step, answer });
                match answer {
                    Answer::Refused(number) => refused[number as usize] += 1,
                    _ => accepted += 1,
                }
            }
            for server in 0..sizes.servers as u32 {
                pair.catalogue(server, 64).expect("a step keeps the room in range");
            }
        }
    }
    println!("{accepted} accepted, refused {refused:?}\n{}", learning.report());
    assert!(accepted > 150_000 && refused[3] == 0);
    assert!((4..=13).all(|number| refused[number] > 0));
    assert!(learning.learned > 500 && learning.least() > 50);
}

#[test]
fn random_cells() {
    let mut refused = 0;
    for (place, sizes) in every_size().enumerate() {
        let mut chance = Chance::of_run(13, place as u32);
        for wrong in [1, 3, 20, 1000] {
            for _ in 0..30 {
                let mut pair = Pair::over(any_cells(&mut chance, sizes, wrong));
                let step = some_step(&mut chance, &pair, sizes);
                refused += u32::from(pair.step(step) == Answer::Refused(3));
                let _ = pair.catalogue(chance.below(6), 64);
            }
        }
    }
    println!("{refused} steps refused with 3");
    assert!(refused > 10_000);
}

/// A room after a run.
fn after_a_run(chance: &mut Chance, sizes: Sizes) -> Pair {
    let (servers, drives, slots) = numbers(sizes);
    let mut pair = Pair::over(vec![0; sizes.length()]);
    let limits = any_limits(chance);
    pair.open(servers, drives, slots, limits).expect("the sizes and the limits fit");
    let habits = Habits::any(chance);
    let mut driver = Driver::new(chance, sizes, habits);
    for _ in 0..20 * sizes.length() {
        let step = driver.next_step(chance, pair.cells());
        driver.hear(pair.step(step));
    }
    pair
}

#[test]
fn one_cell_spoiled() {
    let mut chance = Chance::new(17);
    let rooms = [(1, 1, 1), (2, 3, 4), (3, 2, 3), (4, 4, 2), (3, 5, 8), (4, 7, 16)];
    for (servers, drives, slots) in rooms {
        let sizes = Sizes { servers, drives, slots };
        let mut pair = after_a_run(&mut chance, sizes);
        let mut refused = 0;
        for at in 0..sizes.length() {
            let good = pair.cells()[at];
            let near = [
                good ^ 1,
                good.wrapping_add(1),
                good.wrapping_sub(1),
                good ^ 1 << chance.below(32),
            ];
            for value in EDGES.into_iter().chain(near) {
                pair.set(at, value);
                let kept = pair.cells().to_vec();
                let step = some_step(&mut chance, &pair, sizes);
                refused += u32::from(pair.step(step) == Answer::Refused(3));
                let _ = pair.catalogue(chance.below(servers as u32), 64);
                let _ = pair.ask(chance.below(servers as u32));
                let _ = pair.next(chance.below(servers as u32), chance.below(slots as u32), 8);
                let _ = pair.put(chance.below(servers as u32), chance.below(slots as u32), COIN);
                restore(&mut pair, &kept);
            }
            pair.set(at, good);
        }
        println!("{sizes:?}: {refused} steps refused with 3");
        assert!(refused as usize > 4 * sizes.length());
    }
}

/// Takes the cells back that a step changed.
fn restore(pair: &mut Pair, kept: &[u32]) {
    let changed: Vec<usize> = (0..kept.len()).filter(|&at| pair.cells()[at] != kept[at]).collect();
    for at in changed {
        pair.set(at, kept[at]);
    }
}

#[test]
fn every_length_from_0_to_2608() {
    let mut chance = Chance::new(19);
    let sizes: Vec<Sizes> = every_size().collect();
    let mut opened = 0;
    for length in 0..=2608 {
        let mut pair = Pair::over((0..length).map(|_| any_number(&mut chance)).collect());
        let limits = any_limits(&mut chance);
        for &sizes in &sizes {
            let (servers, drives, slots) = numbers(sizes);
            let answer = pair.open(servers, drives, slots, limits);
            assert_eq!(answer, if sizes.length() == length { Ok(()) } else { Err(2) });
            opened += u32::from(answer.is_ok());
        }
        wrong_length(&mut chance, length);
        assert_eq!(room_of_one().catalogue(0, length).is_ok(), length == 64);
    }
    assert_eq!(opened, 448);
}

/// A row of this length that claims the sizes of a room, for some sizes, with limits
/// that are in range.
fn wrong_length(chance: &mut Chance, length: usize) {
    for _ in 0..12 {
        let claimed = [chance.from_to(1, 4), chance.from_to(1, 7), chance.from_to(1, 16)];
        let limits = any_limits(chance);
        let mut row = [&claimed[..], &[0], &limits].concat();
        row.resize(length, 0);
        let mut pair = Pair::over(row);
        let fits = other::room_length(claimed[0], claimed[1], claimed[2]) as usize == length;
        let refused = Answer::Refused(3);
        assert_eq!(pair.step(other::Step::DriveOff { drive: 0 }) == refused, !fits);
        assert_eq!(pair.catalogue(0, 64).is_err(), !fits);
        assert_eq!(pair.ask(0), if fits { Ok(0) } else { Err(3) });
        assert_eq!(pair.next(0, 0, 8) == Err(3), !fits);
        let put = if is_command(COIN, &limits) { Ok(()) } else { Err(5) };
        assert_eq!(pair.put(0, 0, COIN), if fits { put } else { Err(3) });
    }
}

fn room_of_one() -> Pair {
    let mut pair = Pair::over(vec![0; 27]);
    pair.open(1, 1, 1, USUAL_LIMITS).expect("the sizes fit");
    pair
}

#[test]
fn sizes_that_do_not_fit() {
    let numbers = [0, 1, 2, 4, 5, 7, 8, 16, 17, 255, 256, 65_536, 1 << 28, 1 << 31, u32::MAX];
    for servers in numbers {
        for drives in numbers {
            for slots in numbers {
                let length = other::room_length(servers, drives, slots) as usize;
                assert_eq!(register::room_length(servers, drives, slots).unwrap_or(0), length);
                for length in [0, 1, 4, 12, 19, 27, length, length + 1, 1988, 2500, 2508] {
                    let mut pair = Pair::over(vec![7; length]);
                    let _ = pair.open(servers, drives, slots, USUAL_LIMITS);
                    let mut row = vec![0; length.max(12)];
                    row[..3].copy_from_slice(&[servers, drives, slots]);
                    row[4..12].copy_from_slice(&USUAL_LIMITS);
                    let mut pair = Pair::over(row);
                    pair.step(other::Step::Fail { server: 0 });
                }
            }
        }
    }
}
