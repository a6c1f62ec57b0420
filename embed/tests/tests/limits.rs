//! The limits of a room's cabinets, by both implementations: what open accepts, what
//! may stand in the eight cells, and one command in two rooms.

use other::generator::{any_limits, Chance};
use other::{Answer, Limits, Sizes, Step, USUAL_LIMITS};
use register::{Error, Room};
use tests::hostile::{any_number, in_range, EDGES};
use tests::{every_size, numbers, Pair};

/// Piece 63, of cabinet 7, enters hoard 61.
const IN_61: u32 = 81_725;

/// What 02 says of a limit.
fn is_limit(number: u32) -> bool {
    (1..=255).contains(&number)
}

/// What open answers for sizes that fit.
fn expected(limits: Limits, exact: bool) -> Result<(), u32> {
    match (exact, limits.into_iter().all(is_limit)) {
        (false, _) => Err(2),
        (true, false) => Err(18),
        (true, true) => Ok(()),
    }
}

/// Every number at an edge in every place, in a row that is as long as the room, and
/// in one that is not; then with sizes that do not fit.
#[test]
fn open_with_one_number_at_an_edge() {
    let mut refused = 0;
    for sizes in [(1, 1, 1), (2, 3, 4), (4, 7, 16)].map(|(n, d, s)| Sizes::fit(n, d, s)) {
        let sizes = sizes.expect("the sizes fit");
        let (servers, drives, slots) = numbers(sizes);
        let mut pair = Pair::over(vec![7; sizes.length()]);
        let mut longer = Pair::over(vec![7; sizes.length() + 1]);
        for place in 0..8 {
            for number in EDGES {
                let mut limits = USUAL_LIMITS;
                limits[place] = number;
                let answer = pair.open(servers, drives, slots, limits);
                assert_eq!(answer, expected(limits, true), "{limits:?}");
                refused += u32::from(answer == Err(18));
                assert_eq!(longer.open(servers, drives, slots, limits), Err(2));
                assert_eq!(pair.open(servers, 8, slots, limits), Err(1));
                assert_eq!(longer.open(5, drives, slots, limits), Err(1));
            }
        }
    }
    assert_eq!(refused, 3 * 8 * EDGES.iter().filter(|&&edge| !is_limit(edge)).count() as u32);
}

/// Any eight numbers, in rooms of every size.
#[test]
fn open_with_any_numbers() {
    let mut answers = [0; 19];
    for (place, sizes) in every_size().enumerate() {
        let (servers, drives, slots) = numbers(sizes);
        let mut chance = Chance::of_run(53, place as u32);
        let length = sizes.length();
        for length in [length, length, length, length - 1, length + 8] {
            let mut pair = Pair::over((0..length).map(|_| any_number(&mut chance)).collect());
            for spoiled in [0, 1, 2, 8] {
                let mut limits = any_limits(&mut chance);
                for _ in 0..spoiled {
                    limits[chance.place(8)] = any_number(&mut chance);
                }
                let answer = pair.open(servers, drives, slots, limits);
                assert_eq!(answer, expected(limits, length == sizes.length()), "{limits:?}");
                answers[answer.err().unwrap_or(0) as usize] += 1;
            }
        }
    }
    println!("opened {}, refused with 2: {}, with 18: {}", answers[0], answers[2], answers[18]);
    assert!(answers[0] > 1_000 && answers[2] > 1_000 && answers[18] > 1_000);
}

/// Without limits of its own a room is opened with those of 01.
#[test]
fn open_without_limits() {
    for sizes in every_size() {
        let (servers, drives, slots) = numbers(sizes);
        let mut theirs = vec![7; sizes.length()];
        other::open(&mut theirs, servers, drives, slots, &USUAL_LIMITS).expect("the sizes fit");
        let mine = Room::open(servers, drives, slots).expect("the sizes fit");
        assert_eq!(mine.cells(), theirs);
        let mine = Room::open_in(vec![7; sizes.length()], servers, drives, slots);
        assert_eq!(mine.expect("the sizes fit").cells(), theirs);
    }
}

/// Each of the eight cells with each number, in rooms that hold commands: every call
/// is refused with 3 where the number is no limit, and often where it is one.
#[test]
fn each_limit_of_a_stored_room() {
    let mut chance = Chance::new(59);
    let mut refused = [0; 2];
    for sizes in every_size().filter(|sizes| sizes.slots <= 2) {
        let cells = in_range(&mut chance, sizes);
        for at in 4..12 {
            for number in EDGES.into_iter().chain([60, 128, 200, 254]) {
                let mut pair = Pair::over(cells.clone());
                pair.set(at, number);
                let answers = every_call(&mut pair);
                let out_of_range = answers.contains(&Some(3));
                assert!(!out_of_range || answers == [Some(3); 4], "{answers:?}");
                assert!(out_of_range || is_limit(number), "cell {at} holds {number}");
                refused[usize::from(is_limit(number))] += u32::from(out_of_range);
            }
        }
    }
    println!("refused with 3: {} by a number that is no limit, {} by one", refused[0], refused[1]);
    assert!(refused.iter().all(|&count| count > 1_000));
}

/// The refusals of a step, an Ask, a Put and a catalogue.
fn every_call(pair: &mut Pair) -> [Option<u32>; 4] {
    let step = match pair.step(Step::DriveOn { drive: 0 }) {
        Answer::Refused(number) => Some(number),
        _ => None,
    };
    [step, pair.ask(0).err(), pair.put(0, 0, 196_608).err(), pair.catalogue(0, 64).err()]
}

/// By the package's own words.
#[test]
fn one_command_in_two_rooms() {
    let mut usual = Room::open(1, 1, 1).expect("the sizes fit");
    let own = [255, 255, 200, 200, 120, 120, 60, 61];
    let mut large = Room::open_with(1, 1, 1, own.into()).expect("the limits fit");
    let offer = register::Step::Offer { server: 0, slot: 0, command: IN_61 };
    assert_eq!(usual.put(0, 0, IN_61), Err(Error::NotACommand));
    assert_eq!(usual.step(offer), Err(Error::NotACommand));
    assert_eq!(large.put(0, 0, IN_61), Ok(()));
    assert_eq!(large.step(offer), Ok(register::Answer::Done));
    assert_eq!(large.limits().map(|limits| limits.numbers()), Some(own));
}
