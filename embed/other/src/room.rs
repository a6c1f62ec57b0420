//! The room: its sizes, where its parts stand, the range of its cells, open.

use crate::ballots::is_ballot_or_none;
use crate::commands::{is_command, limits_fit, Commands, Limits, CABINETS};
use crate::refusal;

/// The cells before the first slot: N, D, S, the off marks and the limits.
const HEAD: usize = LIMITS + CABINETS;
/// The cells of a server record.
pub(crate) const RECORD: usize = 11;
/// The cells of a block.
pub(crate) const BLOCK: usize = 4;
/// The cell of the off marks.
pub(crate) const OFF: usize = 3;
/// The first cell of the limits of the cabinets.
const LIMITS: usize = 4;

/// The length of the largest room, 4 servers, 7 drives and 16 slots.
pub const MOST_CELLS: usize = 2508;

/// The sizes of a room. They fit where they come from [`Sizes::fit`].
#[derive(Clone, Copy, Debug, PartialEq, Eq)]
pub struct Sizes {
    /// N, 1 to 4.
    pub servers: usize,
    /// D, 1 to 7.
    pub drives: usize,
    /// S, 1 to 16.
    pub slots: usize,
}

impl Sizes {
    /// The sizes, none where one is outside its range.
    pub fn fit(servers: u32, drives: u32, slots: u32) -> Option<Sizes> {
        let fits =
            (1..=4).contains(&servers) && (1..=7).contains(&drives) && (1..=16).contains(&slots);
        fits.then_some(Sizes {
            servers: servers as usize,
            drives: drives as usize,
            slots: slots as usize,
        })
    }

    /// The number of cells of one slot.
    fn slot_length(self) -> usize {
        self.servers * (RECORD + BLOCK * self.drives)
    }

    /// The number of cells of the room.
    pub fn length(self) -> usize {
        HEAD + self.slots * self.slot_length()
    }

    /// The first cell of a server's record in a slot.
    pub fn server_at(self, slot: usize, server: usize) -> usize {
        HEAD + slot * self.slot_length() + RECORD * server
    }

    /// The first cell of a server's block on a drive, in a slot.
    pub fn block_at(self, slot: usize, drive: usize, server: usize) -> usize {
        let blocks = HEAD + slot * self.slot_length() + RECORD * self.servers;
        blocks + BLOCK * (drive * self.servers + server)
    }

    /// Every mark that may stand for a drive.
    fn drive_marks(self) -> u32 {
        (1 << self.drives) - 1
    }

    /// Every mark that may stand for a block read: bits 4d + q.
    fn read_marks(self) -> u32 {
        let servers = (1 << self.servers) - 1;
        (0..self.drives).fold(0, |marks, drive| marks | servers << (4 * drive))
    }
}

/// The number of cells of a room, 0 where the sizes do not fit.
pub fn room_length(servers: u32, drives: u32, slots: u32) -> u32 {
    Sizes::fit(servers, drives, slots).map_or(0, |sizes| sizes.length() as u32)
}

/// Makes `row` a new room with these limits of its cabinets: the three sizes, no
/// off mark, the limits, then zeros. There must be eight limits.
pub fn open(
    row: &mut [u32],
    servers: u32,
    drives: u32,
    slots: u32,
    limits: &[u32],
) -> Result<(), u32> {
    let sizes = Sizes::fit(servers, drives, slots).ok_or(refusal::SIZES)?;
    let limits: &Limits = limits.try_into().map_err(|_| refusal::LENGTH)?;
    if row.len() != sizes.length() {
        return Err(refusal::LENGTH);
    }
    if !limits_fit(limits) {
        return Err(refusal::LIMITS);
    }
    row.fill(0);
    row[..3].copy_from_slice(&[servers, drives, slots]);
    row[LIMITS..HEAD].copy_from_slice(limits);
    Ok(())
}

/// The limits that stand in a row, in range or not; none where it is too short.
pub fn limits_of(row: &[u32]) -> Option<&Limits> {
    row.get(LIMITS..)?.first_chunk()
}

/// Whether `value` is a command by the limits of a room.
pub(crate) fn has_command(room: &[u32], value: u32) -> bool {
    limits_of(room).is_some_and(|limits| is_command(value, limits))
}

/// Judges every cell. The sizes of the room, none where `row` is no room or a
/// cell is out of range.
pub fn judge(row: &[u32]) -> Option<Sizes> {
    let &[servers, drives, slots, off, ..] = row else {
        return None;
    };
    let sizes = Sizes::fit(servers, drives, slots)?;
    let (drive_marks, read_marks) = (sizes.drive_marks(), sizes.read_marks());
    if row.len() != sizes.length() || off & !drive_marks != 0 {
        return None;
    }
    let commands = Commands::by(limits_of(row)?)?;
    for slot in row[HEAD..].chunks_exact(sizes.slot_length()) {
        let (records, blocks) = slot.split_at(RECORD * sizes.servers);
        let (records, _) = records.as_chunks();
        let (blocks, _) = blocks.as_chunks();
        for record in records {
            if !record_in_range(record, drive_marks, read_marks, &commands) {
                return None;
            }
        }
        for block in blocks {
            if !block_in_range(block, &commands) {
                return None;
            }
        }
    }
    Some(sizes)
}

// Below, numbers joined by `&` are compared without a branch for each, and `&&`
// spares the look at a command where they do not fit.

/// Whether the eleven cells of a server record are in range.
#[inline]
fn record_in_range(
    cells: &[u32; RECORD],
    drive_marks: u32,
    read_marks: u32,
    commands: &Commands,
) -> bool {
    let &[phase, mbal, bal, inp, offer, top, seenbal, seeninp, written, read, agreed] = cells;
    (phase <= 3)
        & is_ballot_or_none(mbal)
        & is_ballot_or_none(bal)
        & is_ballot_or_none(top)
        & is_ballot_or_none(seenbal)
        & (written & !drive_marks == 0)
        & (read & !read_marks == 0)
        && commands.has_or_none(inp)
        && commands.has_or_none(offer)
        && commands.has_or_none(seeninp)
        && commands.has_or_none(agreed)
}

/// Whether mbal, bal, inp and done are in range. Most blocks hold no command, or the
/// same one twice, and then one look is spared.
#[inline]
fn block_in_range(&[mbal, bal, inp, done]: &[u32; BLOCK], commands: &Commands) -> bool {
    is_ballot_or_none(mbal) & is_ballot_or_none(bal)
        && (inp | done == 0
            || commands.has_or_none(inp) && (done == inp || commands.has_or_none(done)))
}
