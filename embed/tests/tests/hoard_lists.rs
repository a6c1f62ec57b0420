//! Whole runs in rooms of every size: each catalogue that the register wrote is listed for
//! the printer, and the list is that of the other implementation. None is refused.

use other::generator::{any_limits, Call, Caller, Chance, Habits};
use other::{Limits, Sizes, Step};
use printing::{hoard_list, Error, HoardList, PIECES};
use register::{Room, STRUCK};
use tests::{every_size, numbers, Pair};

/// Calls of a run, and runs in a room of each size.
const CALLS: u32 = 800;
const RUNS: u32 = 6;

/// How many catalogues were listed; how many of these have an entered piece, a hoard of two
/// pieces, a struck piece; and how many pieces one of them has at most.
#[derive(Debug, Default)]
struct Seen {
    catalogues: u64,
    entered: u64,
    shared: u64,
    struck: u64,
    most: usize,
}

#[test]
fn every_catalogue_of_a_run_is_listed() {
    let mut seen = Seen::default();
    for (place, sizes) in every_size().enumerate() {
        for turn in 0..RUNS {
            let chance = Chance::of_run(83, place as u32 * RUNS + turn);
            run(sizes, chance, &mut seen);
        }
    }
    println!("{seen:?}");
    assert!(seen.catalogues > 200_000 && seen.entered > 100_000);
    assert!(seen.shared > 20_000 && seen.struck > 5_000 && seen.most == 16);
}

/// A run. After each twentieth call every server's catalogue is listed. In half of the runs
/// every command enters a piece, any one, so that the catalogues are fuller; the others move
/// and strike too.
fn run(sizes: Sizes, mut chance: Chance, seen: &mut Seen) {
    let (servers, drives, slots) = numbers(sizes);
    let mut pair = Pair::over(vec![0; sizes.length()]);
    let limits = any_limits(&mut chance);
    pair.open(servers, drives, slots, limits).expect("the sizes and the limits fit");
    let habits = Habits::any(&mut chance);
    let mut caller = Caller::new(&mut chance, sizes, habits);
    let fuller = chance.one_in(2);
    for call in 1..=CALLS {
        let mut next = caller.next_call(&mut chance, pair.cells());
        if fuller {
            next = of_any_piece(&mut chance, &limits, next);
        }
        let reply = pair.call(next);
        caller.hear(next, reply);
        if call % 20 == 0 {
            let room = Room::over(pair.cells());
            for server in 0..servers {
                let catalogue = room.catalogue(server).expect("the room is in range");
                listed(&catalogue.cells, seen);
            }
        }
    }
}

/// The same call, but any piece enters one of a few hoards where it offers a command.
fn of_any_piece(chance: &mut Chance, limits: &Limits, call: Call) -> Call {
    let piece = chance.below(64);
    let hoard = chance.from_to(1, limits[piece as usize / 8].min(9));
    let command = 1 << 16 | piece << 8 | hoard;
    match call {
        Call::Step(Step::Offer { server, slot, .. }) => {
            Call::Step(Step::Offer { server, slot, number: command })
        }
        Call::Put { server, slot, .. } => Call::Put { server, slot, command },
        _ => call,
    }
}

/// The list of a catalogue by both, in cells that hold other numbers.
fn listed(catalogue: &[u32; PIECES], seen: &mut Seen) {
    let (mut mine, mut theirs) = ([7; PIECES], [9; PIECES]);
    let their_answer = other::hoard_list(catalogue, &mut theirs);
    let my_answer = hoard_list(catalogue, &mut mine).map_err(Error::number);
    assert_eq!(my_answer, their_answer, "{catalogue:?}");
    assert_eq!(mine, theirs, "{catalogue:?}");
    let entered = my_answer.expect("a catalogue that the register wrote is listed");
    let list = HoardList::of(catalogue).expect("a catalogue that the register wrote is listed");
    let pieces = theirs[..entered].iter().copied();
    assert!(list.pieces().iter().copied().map(u32::from).eq(pieces), "{list:?}");
    seen.catalogues += 1;
    seen.entered += u64::from(entered > 0);
    seen.shared += u64::from(list.hoards().any(|(_, pieces)| pieces.len() > 1));
    seen.struck += u64::from(catalogue.contains(&STRUCK));
    seen.most = seen.most.max(entered);
}
