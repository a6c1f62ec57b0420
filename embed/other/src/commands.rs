//! What a command is: kind, piece and hoard, by the limits of a room's cabinets.

/// The number of cabinets. Cabinet c has the pieces from 8c to 8c + 7.
pub const CABINETS: usize = 8;

/// The largest hoards of the cabinets of a room.
pub type Limits = [u32; CABINETS];

/// The limits of 01, with which rehearse opens its room.
pub const USUAL_LIMITS: Limits = [255, 255, 200, 200, 120, 120, 60, 60];

/// What a command asks for a piece.
#[derive(Clone, Copy, Debug, PartialEq, Eq)]
pub enum Kind {
    /// The piece comes into a hoard.
    Enter,
    /// The piece goes to another hoard.
    Move,
    /// The piece leaves its hoard, and its number is not used again.
    Strike,
}

/// The kind of a command, none where `value` has an unknown one.
pub(crate) fn kind(value: u32) -> Option<Kind> {
    match value >> 16 {
        1 => Some(Kind::Enter),
        2 => Some(Kind::Move),
        3 => Some(Kind::Strike),
        _ => None,
    }
}

/// The piece of a command.
pub(crate) fn piece(value: u32) -> u32 {
    (value >> 8) & 255
}

/// The hoard of a command.
pub(crate) fn hoard(value: u32) -> u32 {
    value & 255
}

/// The cabinet of a piece.
pub(crate) fn cabinet(piece: u32) -> usize {
    piece as usize / 8
}

/// Whether every cabinet may have its limit.
pub(crate) fn limits_fit(limits: &Limits) -> bool {
    limits.iter().all(|limit| (1..=255).contains(limit))
}

/// Whether `value` is a command by these limits.
pub fn is_command(value: u32, limits: &Limits) -> bool {
    let Some(&limit) = limits.get(cabinet(piece(value))) else {
        return false;
    };
    match kind(value) {
        Some(Kind::Enter | Kind::Move) => (1..=limit).contains(&hoard(value)),
        Some(Kind::Strike) => hoard(value) == 0,
        None => false,
    }
}

/// The commands of a room, for many looks in one call: how many hoards a command may
/// name, in row 4 * kind for each cabinet. So a number divided by 2,048 is the place
/// to look at, and one look serves all kinds, without a branch for each.
pub(crate) struct Commands([[u8; CABINETS]; 16]);

impl Commands {
    /// The commands by these limits, none where a limit is outside its range.
    #[inline]
    pub(crate) fn by(limits: &Limits) -> Option<Commands> {
        if !limits_fit(limits) {
            return None;
        }
        let limits = limits.map(|limit| limit as u8);
        let mut hoards = [[0; CABINETS]; 16];
        (hoards[4], hoards[8], hoards[12]) = (limits, limits, [1; CABINETS]);
        Some(Commands(hoards))
    }

    /// Whether a cell that holds a command or none is in range.
    #[inline]
    pub(crate) fn has_or_none(&self, value: u32) -> bool {
        value == 0 || self.has(value)
    }

    /// Whether `value` is a command.
    #[inline]
    fn has(&self, value: u32) -> bool {
        // The hoards of a strike begin with 0. Those of the other kinds begin with 1,
        // and are counted from 0 here; hoard 0 becomes 255, which is too large.
        let counted = value.wrapping_sub(u32::from(value < 3 << 16));
        match self.0.as_flattened().get((counted >> 11) as usize) {
            Some(&many) => (counted as u8) < many,
            None => false,
        }
    }
}
