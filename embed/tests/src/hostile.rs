//! Rows that no run makes.

use other::generator::{any_limits, Chance};
use other::{Limits, Sizes, BALLOT_LIMIT};

/// What a cell of a room may hold.
#[derive(Clone, Copy)]
enum Cell {
    Phase,
    Ballot,
    Value,
    Done,
    Drives,
    Reads,
}

/// The eleven cells of a server record, and the four of a block.
const RECORD: [Cell; 11] = [
    Cell::Phase,
    Cell::Ballot,
    Cell::Ballot,
    Cell::Value,
    Cell::Value,
    Cell::Ballot,
    Cell::Ballot,
    Cell::Value,
    Cell::Drives,
    Cell::Reads,
    Cell::Value,
];
const BLOCK: [Cell; 4] = [Cell::Ballot, Cell::Ballot, Cell::Value, Cell::Done];

/// A room with any limits and any cells that are in range, most of which no run
/// reaches.
pub fn in_range(chance: &mut Chance, sizes: Sizes) -> Vec<u32> {
    let limits = any_limits(chance);
    let mut room = vec![sizes.servers as u32, sizes.drives as u32, sizes.slots as u32];
    room.push(cell(chance, sizes, &limits, Cell::Drives));
    room.extend(limits);
    for _ in 0..sizes.slots {
        for _ in 0..sizes.servers {
            room.extend(RECORD.map(|kind| cell(chance, sizes, &limits, kind)));
        }
        for _ in 0..sizes.servers * sizes.drives {
            room.extend(BLOCK.map(|kind| cell(chance, sizes, &limits, kind)));
        }
    }
    room
}

/// A row of these sizes with any cells; `wrong` in a thousand are any number.
pub fn any_cells(chance: &mut Chance, sizes: Sizes, wrong: u32) -> Vec<u32> {
    let mut room = in_range(chance, sizes);
    for cell in &mut room[3..] {
        if chance.per_mille(wrong) {
            *cell = any_number(chance);
        }
    }
    room
}

/// Any number, often one at an edge.
pub fn any_number(chance: &mut Chance) -> u32 {
    match chance.below(3) {
        0 => chance.one_of(&EDGES),
        1 => chance.below(300_000),
        _ => chance.draw() as u32,
    }
}

/// Numbers at the edges of what the cells may hold.
pub const EDGES: [u32; 26] = [
    0,
    1,
    2,
    3,
    4,
    5,
    0x7f,
    0x80,
    0xff,
    0x100,
    0x101,
    65_535,
    65_536,
    65_537,
    81_724,
    81_725,
    131_071,
    196_608,
    196_609,
    212_992,
    262_144,
    BALLOT_LIMIT,
    BALLOT_LIMIT + 1,
    0x0fff_ffff,
    0x1000_0000,
    u32::MAX,
];

/// A number that the cell may hold.
fn cell(chance: &mut Chance, sizes: Sizes, limits: &Limits, kind: Cell) -> u32 {
    match kind {
        Cell::Phase => chance.below(4),
        Cell::Ballot => ballot(chance),
        Cell::Value => value(chance, limits),
        // More often 0, for a Read looks at the ballots only then.
        Cell::Done if chance.one_in(2) => 0,
        Cell::Done => value(chance, limits),
        Cell::Drives => marks(chance, |bit| bit < sizes.drives),
        Cell::Reads => marks(chance, |bit| bit / 4 < sizes.drives && bit % 4 < sizes.servers),
    }
}

/// 0, a small ballot, any, or one near the limit.
fn ballot(chance: &mut Chance) -> u32 {
    match chance.below(4) {
        0 => 0,
        1 => chance.below(12),
        2 => chance.from_to(0, BALLOT_LIMIT),
        _ => BALLOT_LIMIT - chance.below(6),
    }
}

/// 0, or a command by these limits, in one case of eight with the largest hoard.
fn value(chance: &mut Chance, limits: &Limits) -> u32 {
    let piece = chance.below(64);
    let largest = limits[piece as usize / 8];
    let hoard = if chance.one_in(8) { largest } else { chance.from_to(1, largest) };
    match chance.below(4) {
        0 => 0,
        3 => 3 << 16 | piece << 8,
        kind => kind << 16 | piece << 8 | hoard,
    }
}

/// None, all, or any of the marks that are legal.
fn marks(chance: &mut Chance, legal: impl Fn(usize) -> bool) -> u32 {
    let chosen = match chance.below(4) {
        0 => 0,
        1 => u32::MAX,
        _ => chance.draw() as u32,
    };
    (0..32).filter(|&bit| legal(bit)).map(|bit| chosen & 1 << bit).sum()
}
