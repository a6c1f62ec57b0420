//! The generated inputs: the same from the same seed, every answer occurs, half
//! of the drives often decides, and what is settled is often told and learned. The
//! generated steps: their commands are by the limits of the room.

use other::generator::{
    any_limits, any_step, make_input, replay, Chance, Driver, Habits, Halves, Learning, Tally,
};
use other::{open, rehearse, step, Answer, Limits, Sizes, Step};

#[test]
fn a_seed_makes_the_same_inputs() {
    for index in 0..60 {
        let input = make_input(5, index, 200);
        assert_eq!(input, make_input(5, index, 200));
    }
    assert_ne!(make_input(5, 7, 200), make_input(6, 7, 200));
}

#[test]
fn a_set_has_every_answer() {
    let mut tally = Tally::default();
    for index in 0..400 {
        tally.count(&rehearse(&make_input(1, index, 200)));
    }
    assert_eq!(tally.missing(), Vec::<String>::new());
    assert_eq!(tally.unexpected(), Vec::<String>::new());
}

#[test]
fn half_of_the_drives_often_decides() {
    let mut halves = Halves::default();
    for index in 0..400 {
        replay(&make_input(1, index, 200), |taken| halves.count(&taken));
    }
    println!("{}", halves.report());
    assert!(halves.least() >= 30);
}

#[test]
fn settled_commands_are_often_told_and_learned() {
    let mut learning = Learning::default();
    for index in 0..400 {
        replay(&make_input(1, index, 200), |taken| learning.count(&taken));
    }
    println!("{}", learning.report());
    assert!(learning.told > 2_000 && learning.learned > 400);
    assert!(learning.untold > 400 && learning.recalled > 400);
    assert!(learning.not_outbid > 100 && learning.not_refused > 4);
}

#[test]
fn the_fourth_input_is_as_long_as_can_be() {
    let input = make_input(1, 3, u32::MAX);
    assert_eq!(input.len(), 65_536);
    assert_eq!(input[..3], [4, 7, 16]);
    let mut tally = Tally::default();
    tally.count(&rehearse(&input));
    assert!(tally.steps > 10_000);
}

/// A new room of 2 servers, 3 drives and 4 slots, with any limits.
fn opened(chance: &mut Chance) -> (Vec<u32>, Sizes, Limits) {
    let sizes = Sizes { servers: 2, drives: 3, slots: 4 };
    let (mut room, limits) = (vec![0; sizes.length()], any_limits(chance));
    assert_eq!(open(&mut room, 2, 3, 4, &limits), Ok(()));
    (room, sizes, limits)
}

#[test]
fn servers_that_follow_the_protocol_offer_commands_of_their_room() {
    let mut chance = Chance::new(11);
    let (mut offers, mut small) = (0, 0);
    for _ in 0..200 {
        let (mut room, sizes, limits) = opened(&mut chance);
        let habits = Habits { noise: 0, failures: 20, ..Habits::any(&mut chance) };
        let mut driver = Driver::new(&mut chance, sizes, habits);
        for _ in 0..300 {
            let next = driver.next_step(&mut chance, &room);
            let answer = step(&mut room, next);
            driver.hear(answer);
            if let Step::Offer { number, .. } = next {
                assert_eq!(answer, Answer::Done, "{number} by {limits:?}");
                offers += 1;
                small += u32::from(limits[(number / 2_048 % 8) as usize] < 60);
            }
        }
    }
    assert!(offers > 1_000 && small > 100);
}

#[test]
fn the_largest_hoard_of_a_cabinet_and_the_one_above_it_are_offered() {
    let mut chance = Chance::new(12);
    let (mut largest, mut above) = (0, 0);
    for _ in 0..200 {
        let (mut room, sizes, limits) = opened(&mut chance);
        for _ in 0..200 {
            let next = any_step(&mut chance, &room, sizes, 0, &[5, 17, 63]);
            let answer = step(&mut room, next);
            let Step::Offer { number: number @ 65_536..196_608, .. } = next else { continue };
            let limit = limits[(number / 2_048 % 8) as usize];
            match answer {
                Answer::Done => largest += u32::from(number % 256 == limit),
                Answer::Refused(5) => above += u32::from(number % 256 == limit + 1),
                _ => {}
            }
        }
    }
    assert!(largest > 100 && above > 100);
}
