//! The least own ballot above one found, by itself.

use std::hint::black_box;

use other::generator::Chance;
use other::BALLOT_LIMIT;

use crate::clock::{side_by_side, Times};

/// Rounds, and the questions of one. They are many, so that a processor does not learn their
/// order: with 50,000 the register took 1.8 ns at once and not 3.0, with a million 3.1.
const ROUNDS: u32 = 50;
const QUESTIONS: usize = 200_000;

/// How many servers there are, which of them asks, and the ballot that it found.
pub type Question = (u32, u32, u32);

/// Questions, each drawn evenly.
pub fn questions() -> Vec<Question> {
    let mut chance = Chance::new(5);
    let mut draw = || {
        let servers = chance.from_to(1, 4);
        (servers, chance.below(servers), chance.from_to(0, BALLOT_LIMIT))
    };
    (0..QUESTIONS).map(|_| draw()).collect()
}

/// Both implementations answer the same questions. Where they are asked in turn, each waits
/// for the answer before it, as on a small board, which does one thing at a time.
pub fn next<const IN_TURN: bool>(questions: &[Question]) -> Times {
    let (mut sum, mut their_sum) = (0, 0);
    let times = side_by_side(
        ROUNDS,
        questions.len(),
        || sum = asked::<IN_TURN>(questions, ballot::next_own),
        || their_sum = asked::<IN_TURN>(questions, theirs),
    );
    assert_eq!(sum, their_sum, "the ballots differ");
    times
}

/// Asks every question, and gives the sum of the answers.
fn asked<const IN_TURN: bool>(
    questions: &[Question],
    next: impl Fn(u32, u32, u32) -> Option<u32>,
) -> u64 {
    let nothing = black_box(0);
    let (mut sum, mut last) = (0, 0);
    for &(servers, server, found) in black_box(questions) {
        let found = if IN_TURN { found + (last & nothing) } else { found };
        last = next(servers, server, found).unwrap_or(0);
        sum += u64::from(last);
    }
    sum
}

/// A call, as the register's is.
#[inline(never)]
fn theirs(servers: u32, server: u32, found: u32) -> Option<u32> {
    other::least_own_above(found, server, servers)
}
