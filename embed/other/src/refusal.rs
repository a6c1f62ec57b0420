//! The refusal numbers of 01, "Who can bring which number", and those of 02.

/// Sizes outside range.
pub const SIZES: u32 = 1;
/// Buffer length wrong.
pub const LENGTH: u32 = 2;
/// Cells out of range, or a row that is no room.
pub const RANGE: u32 = 3;
/// Server, slot, drive or other beyond the room, or other = server.
pub const BEYOND: u32 = 4;
/// Not a command.
pub const NOT_A_COMMAND: u32 = 5;
/// Ballot 0, above the limit or another server's.
pub const BALLOT: u32 = 6;
/// Wrong phase.
pub const PHASE: u32 = 7;
/// Drive off.
pub const DRIVE_OFF: u32 = 8;
/// Drive not written in this phase.
pub const NOT_WRITTEN: u32 = 9;
/// No majority.
pub const NO_MAJORITY: u32 = 10;
/// Ballot not above top (Rejoin) or the own mbal (Bid).
pub const NOT_ABOVE: u32 = 11;
/// Seeninp and offer both 0.
pub const NOTHING_OFFERED: u32 = 12;
/// Outbid and no own ballot left.
pub const NO_BALLOT_LEFT: u32 = 13;
/// Record cut short.
pub const CUT_SHORT: u32 = 14;
/// Record malformed.
pub const MALFORMED: u32 = 15;
/// The slot is not free for the server.
pub const NOT_FREE: u32 = 16;
/// No slot is free for the server.
pub const NO_FREE_SLOT: u32 = 17;
/// A limit of a cabinet outside 1 to 255.
pub const LIMITS: u32 = 18;
/// The drives that are on form no majority.
pub const NO_MAJORITY_ON: u32 = 19;
