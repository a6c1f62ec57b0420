//! Ballots: the limit, the owner, and the least own ballot above another.

/// The largest ballot.
pub const BALLOT_LIMIT: u32 = 1_000_000;

/// The server that ballot `ballot` belongs to, none where it is no ballot.
pub fn owner(ballot: u32, servers: u32) -> Option<u32> {
    if (1..=BALLOT_LIMIT).contains(&ballot) {
        Some((ballot - 1) % servers)
    } else {
        None
    }
}

/// The least ballot of `server` above `found`, none where it is above the
/// limit. `found` is at most the limit and `server` is below `servers`.
pub fn least_own_above(found: u32, server: u32, servers: u32) -> Option<u32> {
    // Ballot found + 1 belongs to server found mod N.
    let first = found % servers;
    let away = if server < first { server + servers - first } else { server - first };
    let ballot = found + 1 + away;
    (ballot <= BALLOT_LIMIT).then_some(ballot)
}

/// Whether a cell that holds a ballot or none is in range.
#[inline]
pub(crate) fn is_ballot_or_none(value: u32) -> bool {
    value <= BALLOT_LIMIT
}
