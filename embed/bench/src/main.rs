//! Times the register beside the other implementation, and the hoard list beside plain Rust,
//! and prints the tables of docs/PERFORMANCE.md. No test: it fails only where the cells
//! differ, and not where a bound does not hold.

mod ballots;
mod bounds;
mod clock;
mod lists;
mod machine;
mod measure;
mod rooms;
mod tables;

use other::Sizes;
use tables::{On, Tables};

/// The rooms that are timed: servers, drives, slots.
const SIZES: [(u32, u32, u32); 4] = [(1, 1, 1), (2, 3, 4), (3, 5, 8), (4, 7, 16)];

fn main() {
    machine::print();
    let sizes = SIZES.map(|(n, d, s)| Sizes::fit(n, d, s).expect("the sizes fit"));
    let mut tables = Tables::default();
    steps(&mut tables, sizes);
    asks_and_puts(&mut tables, sizes);
    catalogues(&mut tables, sizes);
    next_steps(&mut tables, sizes);
    tables.records("Step records, one of each kind in turn");
    let records = rooms::one_of_each();
    let bytes = records.iter().map(Vec::len).sum::<usize>() as f64 / records.len() as f64;
    tables.line("read", On::NoRoom(bytes), measure::reading(&records));
    tables.line("write", On::NoRoom(bytes), measure::writing(&records));
    tables.ballots("The least own ballot above one found");
    let questions = ballots::questions();
    let found = On::NoRoom(questions.len() as f64);
    tables.line("in turn", found, ballots::next::<true>(&questions));
    tables.line("at once", found, ballots::next::<false>(&questions));
    hoard_lists(&mut tables);
    bounds::print(&tables.lines);
}

fn steps(tables: &mut Tables, sizes: [Sizes; 4]) {
    tables.rooms("A step from its record; each step judges every cell");
    for sizes in sizes {
        tables.line("step", On::Room(sizes, "empty"), measure::steps(rooms::empty(sizes)));
        tables.line("step", On::Room(sizes, "filled"), measure::steps(rooms::filled(sizes)));
        tables.line("step", On::Room(sizes, "limited"), measure::steps(rooms::limited(sizes)));
        tables.line("step", On::Room(sizes, "run"), measure::run(rooms::run(sizes)));
    }
}

fn asks_and_puts(tables: &mut Tables, sizes: [Sizes; 4]) {
    tables.rooms("Ask and then Put; each judges every cell");
    for sizes in sizes {
        let states = [
            ("empty", rooms::empty(sizes).room),
            ("filled", rooms::filled(sizes).room),
            ("run", rooms::run(sizes).last),
        ];
        for (state, room) in states {
            tables.line("ask, put", On::Room(sizes, state), measure::ask_then_put(room, sizes));
        }
    }
}

fn catalogues(tables: &mut Tables, sizes: [Sizes; 4]) {
    tables.rooms("The catalogue of a server");
    for sizes in sizes {
        let states = [
            ("empty", rooms::empty(sizes).room),
            ("filled", rooms::filled(sizes).room),
            ("limited", rooms::limited(sizes).room),
            ("mixed", rooms::mixed(sizes)),
            ("run", rooms::run(sizes).last),
        ];
        for (state, room) in states {
            tables.line("catalogue", On::Room(sizes, state), measure::catalogue(room));
        }
    }
}

/// In one room the next steps are of one kind: a Recall, a Rejoin, a Read (a Finish where there
/// is one server), a Finish; in a filled room there is none, and after a run they are any.
fn next_steps(tables: &mut Tables, sizes: [Sizes; 4]) {
    tables.rooms("The record of the next step, of each server in each slot in turn");
    for sizes in sizes {
        let states = [
            ("empty", rooms::empty(sizes).room),
            ("recalled", rooms::in_phase(sizes, 0)),
            ("phase 1", rooms::in_phase(sizes, 1)),
            ("phase 2", rooms::in_phase(sizes, 2)),
            ("filled", rooms::filled(sizes).room),
            ("run", rooms::run(sizes).last),
        ];
        for (state, room) in states {
            tables.line("next", On::Room(sizes, state), measure::next(room, sizes));
        }
    }
}

/// Beside a sort, which the bound is about, and beside a count, which is faster where many
/// pieces are entered.
fn hoard_lists(tables: &mut Tables) {
    let peers: [(_, _, lists::Call); 2] = [
        ("The hoard list of a catalogue, beside a sort", "hoard list", lists::sorted),
        ("The same, beside a count of each hoard", "beside a count", lists::counted),
    ];
    for (title, call, plain) in peers {
        tables.lists(title);
        for case in lists::CASES {
            let on = On::Catalogue(case.entered as f64, case.name);
            tables.line(call, on, lists::lists(&lists::catalogues(&case), plain));
        }
    }
}
