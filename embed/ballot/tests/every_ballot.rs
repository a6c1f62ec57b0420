//! Every room size, every server and every ballot found, against what the owners of the
//! ballots say: a walk from the last ballot down that keeps the last own one it met.

use ballot::next_own;
use other::{least_own_above, owner, BALLOT_LIMIT};

#[test]
fn every_ballot_found() {
    for servers in 1..=4 {
        for server in 0..servers {
            let mut least = None;
            for found in (0..=BALLOT_LIMIT).rev() {
                assert_eq!(next_own(servers, server, found), least, "{servers} {server} {found}");
                assert_eq!(least_own_above(found, server, servers), least);
                if owner(found, servers) == Some(server) {
                    least = Some(found);
                }
            }
            assert_eq!(least, Some(server + 1), "the first ballot of {server} of {servers}");
        }
    }
}

#[test]
fn numbers_that_no_room_has() {
    let any = [0, 1, 3, 4, 5, 1 << 16, u32::MAX];
    for servers in any {
        for server in any {
            for found in [0, BALLOT_LIMIT - 1, BALLOT_LIMIT, BALLOT_LIMIT + 1, u32::MAX] {
                if server < servers && servers <= 4 && found <= BALLOT_LIMIT {
                    continue;
                }
                assert_eq!(next_own(servers, server, found), None, "{servers} {server} {found}");
            }
        }
    }
}
