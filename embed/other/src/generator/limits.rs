//! Limits of cabinets that open accepts.

use super::chance::Chance;
use crate::commands::{Limits, CABINETS, USUAL_LIMITS};

/// Any limits, in one room of four those of 01.
pub fn any_limits(chance: &mut Chance) -> Limits {
    match chance.below(4) {
        0 => USUAL_LIMITS,
        1 => [chance.from_to(1, 255); CABINETS],
        2 => [(); CABINETS].map(|()| chance.one_of(&[1, 2, 60, 127, 128, 254, 255])),
        _ => [(); CABINETS].map(|()| chance.from_to(1, 255)),
    }
}
