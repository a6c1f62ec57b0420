//! The proved least own ballot by itself (`crates/ballot_c`). The register calls it inside a
//! Read; here it is timed alone, and compared for every ballot found.

mod library {
    extern "C" {
        pub fn ballot_next(servers: u32, server: u32, found: u32) -> u32;
    }
}

/// The least ballot of `server` above `found` in a room of `servers`, none where none is left.
/// Any numbers may be given.
#[inline]
#[must_use]
pub fn next_own(servers: u32, server: u32, found: u32) -> Option<u32> {
    // SAFETY: the function takes three numbers of any size and touches no memory.
    match unsafe { library::ballot_next(servers, server, found) } {
        0 => None,
        ballot => Some(ballot),
    }
}
