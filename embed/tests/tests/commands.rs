//! Commands, judged by both implementations, each time by the limits of a room.

use other::{Answer, Limits, Step, USUAL_LIMITS};
use register::{Command, Error, Kind};
use tests::hostile::EDGES;
use tests::Pair;

/// The limits of a room in which every cabinet has every hoard.
const LARGEST: Limits = [255; 8];

/// Limits of rooms: those of 01, the smallest, the largest, and some of a museum.
const TABLES: [Limits; 5] =
    [USUAL_LIMITS, [1; 8], LARGEST, [1, 255, 2, 254, 128, 7, 61, 60], [60, 61, 7, 9, 3, 2, 1, 4]];

/// Every number up to beyond the last strike, and edges beyond these.
fn every_number() -> impl Iterator<Item = u32> {
    (0..270_000).chain(EDGES.into_iter().filter(|&number| number >= 270_000))
}

/// How many numbers are commands by these limits: two kinds with eight pieces in each
/// cabinet, and 64 strikes.
fn commands_by(limits: Limits) -> u32 {
    16 * limits.iter().sum::<u32>() + 64
}

/// A room of one server, one drive and one slot, and the cell of its offer.
fn room_with(limits: Limits) -> (Pair, usize) {
    let mut pair = Pair::over(vec![7; 27]);
    pair.open(1, 1, 1, limits).expect("the sizes and the limits fit");
    (pair, 12 + 4)
}

#[test]
fn every_number_offered_by_several_tables() {
    for limits in TABLES {
        let (mut pair, offer) = room_with(limits);
        let mut commands = 0;
        for number in every_number() {
            let legal = other::is_command(number, &limits);
            let answer = pair.step(Step::Offer { server: 0, slot: 0, number });
            let expected = if legal { Answer::Done } else { Answer::Refused(5) };
            assert_eq!(answer, expected, "{number} by {limits:?}");
            assert!(!legal || pair.cells()[offer] == number);
            commands += u32::from(legal);
        }
        assert_eq!(commands, commands_by(limits));
    }
}

/// As an offer, and as what stands in a cell.
#[test]
fn every_number_put_and_stored_by_several_tables() {
    for limits in TABLES {
        let (mut pair, offer) = room_with(limits);
        for number in every_number() {
            let legal = other::is_command(number, &limits);
            let answer = pair.put(0, 0, number);
            assert_eq!(answer, if legal { Ok(()) } else { Err(5) }, "{number} by {limits:?}");
            pair.set(offer, number);
            let stored = pair.ask(0);
            let expected = if number == 0 { Ok(0) } else { Err(17) };
            let legal = legal || number == 0;
            assert_eq!(stored, if legal { expected } else { Err(3) }, "{number} by {limits:?}");
            pair.set(offer, 0);
        }
    }
}

/// The package's own type has the commands of the room with the largest limits.
#[test]
fn every_number_as_a_command() {
    let mut commands = 0;
    for number in every_number() {
        let judged = Command::of(number);
        assert_eq!(judged.is_ok(), other::is_command(number, &LARGEST), "{number}");
        match judged {
            Ok(command) => {
                assert_eq!(u32::from(command), number);
                commands += 1;
            }
            Err(error) => assert_eq!(error, Error::NotACommand),
        }
    }
    assert_eq!(commands, commands_by(LARGEST));
}

/// Every piece and hoard: a constructor makes the number of its kind, or none.
#[test]
fn every_piece_and_hoard() {
    for piece in 0..=255 {
        for hoard in 0..=255 {
            let number = |kind: u32| kind << 16 | u32::from(piece) << 8 | u32::from(hoard);
            made(Command::enter(piece, hoard), number(1), Kind::Enter, piece, Some(hoard));
            made(Command::move_to(piece, hoard), number(2), Kind::Move, piece, Some(hoard));
        }
        let number = 3 << 16 | u32::from(piece) << 8;
        made(Command::strike(piece), number, Kind::Strike, piece, None);
    }
}

fn made(command: Result<Command, Error>, number: u32, kind: Kind, piece: u8, hoard: Option<u8>) {
    match command {
        Ok(command) => {
            assert!(piece <= 63 && hoard != Some(0), "{number} is no command");
            assert_eq!(command.number(), number);
            assert_eq!((command.kind(), command.piece(), command.hoard()), (kind, piece, hoard));
        }
        Err(error) => {
            assert_eq!(error, Error::NotACommand);
            assert!(piece > 63 || hoard == Some(0), "{number} is a command");
        }
    }
}
