//! Two pieces of work timed side by side.

use std::time::Instant;

/// Nanoseconds for one unit of work, the lowest of all rounds.
#[derive(Clone, Copy)]
pub struct Times {
    pub register: f64,
    pub other: f64,
}

/// Times both pieces of work in turn, `rounds` times each. `units` is how much one
/// call of a piece does.
pub fn side_by_side(
    rounds: u32,
    units: usize,
    mut register: impl FnMut(),
    mut other: impl FnMut(),
) -> Times {
    let mut times = Times { register: f64::INFINITY, other: f64::INFINITY };
    for _ in 0..rounds {
        times.register = times.register.min(nanoseconds(&mut register) / units as f64);
        times.other = times.other.min(nanoseconds(&mut other) / units as f64);
    }
    times
}

fn nanoseconds(work: &mut impl FnMut()) -> f64 {
    let start = Instant::now();
    work();
    start.elapsed().as_nanos() as f64
}
