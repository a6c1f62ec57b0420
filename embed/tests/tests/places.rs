//! Where limits, records and blocks stand and what they hold, by both implementations.

use other::generator::Chance;
use other::{limits_of, Block, Server, Sizes};
use register::{block_at, server_at, Room};
use tests::hostile::in_range;
use tests::{every_size, numbers};

/// Numbers beyond every room.
const BEYOND: [u32; 8] = [16, 17, 255, 256, 65_536, 1 << 30, 1 << 31, u32::MAX];

/// Every server, slot and drive of a room, and then one beyond in each.
fn places(sizes: Sizes) -> impl Iterator<Item = (usize, usize, usize)> {
    (0..=sizes.servers).flat_map(move |server| {
        (0..=sizes.slots).flat_map(move |slot| (0..=sizes.drives).map(move |d| (server, slot, d)))
    })
}

#[test]
fn every_place_of_every_room() {
    for sizes in every_size() {
        let (n, d, s) = numbers(sizes);
        for (server, slot, drive) in places(sizes) {
            let (p, q, r) = (server as u32, slot as u32, drive as u32);
            let inside = server < sizes.servers && slot < sizes.slots;
            let at = inside.then(|| sizes.server_at(slot, server));
            assert_eq!(server_at(n, d, s, p, q), at, "{sizes:?} server {server} slot {slot}");
            let inside = inside && drive < sizes.drives;
            let at = inside.then(|| sizes.block_at(slot, drive, server));
            assert_eq!(block_at(n, d, s, p, q, r), at, "{sizes:?} {server} {slot} {drive}");
        }
        for far in BEYOND {
            assert_eq!(server_at(n, d, s, far, 0), None);
            assert_eq!(server_at(n, d, s, 0, far), None);
            assert_eq!(block_at(n, d, s, far, 0, 0), None);
            assert_eq!(block_at(n, d, s, 0, far, 0), None);
            assert_eq!(block_at(n, d, s, 0, 0, far), None);
        }
    }
}

#[test]
fn sizes_that_do_not_fit_have_no_place() {
    let edges = [0, 1, 4, 5, 7, 8, 16, 17, 1 << 16, 1 << 31, u32::MAX];
    let mut none = 0;
    for servers in edges {
        for drives in edges {
            for slots in edges {
                let fit = Sizes::fit(servers, drives, slots).is_some();
                assert_eq!(server_at(servers, drives, slots, 0, 0).is_some(), fit);
                assert_eq!(block_at(servers, drives, slots, 0, 0, 0).is_some(), fit);
                none += u32::from(!fit);
            }
        }
    }
    assert!(none > 1_000);
}

/// Rooms with any cells: what stands at each place.
#[test]
fn what_stands_there() {
    let mut chance = Chance::new(37);
    for sizes in every_size() {
        let cells = in_range(&mut chance, sizes);
        let room = Room::over(cells.clone());
        assert_eq!(room.limits().map(|limits| limits.numbers()), limits_of(&cells).copied());
        for (server, slot, drive) in places(sizes) {
            let (p, q, r) = (server as u32, slot as u32, drive as u32);
            let inside = server < sizes.servers && slot < sizes.slots;
            let theirs = inside.then(|| Server::load(&cells, sizes.server_at(slot, server)));
            assert_eq!(room.server(p, q).map(server_of), theirs);
            let inside = inside && drive < sizes.drives;
            let theirs = inside.then(|| Block::load(&cells, sizes.block_at(slot, drive, server)));
            assert_eq!(room.block(p, q, r).map(block_of), theirs);
        }
        let short = Room::over(&cells[..cells.len() - 1]);
        let (last, slot) = (sizes.servers as u32 - 1, sizes.slots as u32 - 1);
        assert_eq!(short.block(last, slot, sizes.drives as u32 - 1), None, "a cell is missing");
        assert_eq!(Room::over(&cells[..12]).limits(), room.limits());
        assert_eq!(Room::over(&cells[..11]).limits(), None);
    }
}

fn server_of(server: register::Server) -> Server {
    Server {
        phase: server.phase,
        mbal: server.own.mbal,
        bal: server.own.bal,
        inp: server.own.inp,
        offer: server.offer,
        top: server.top,
        seenbal: server.seenbal,
        seeninp: server.seeninp,
        written: server.written,
        read: server.read,
        agreed: server.agreed,
    }
}

fn block_of(block: register::Block) -> Block {
    Block { mbal: block.mbal, bal: block.bal, inp: block.inp, done: block.done }
}
