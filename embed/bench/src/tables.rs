//! The tables as they are printed. Their lines are kept for the bounds.

use other::Sizes;

use crate::clock::Times;

/// What a call works on: a room in some state; a catalogue of some case, with how many pieces
/// are entered in it; or neither, with the number that its table has in place of the cells.
#[derive(Clone, Copy)]
pub enum On {
    Room(Sizes, &'static str),
    Catalogue(f64, &'static str),
    NoRoom(f64),
}

/// A call that was timed.
pub struct Line {
    pub call: &'static str,
    pub on: On,
    times: Times,
}

impl Line {
    /// How many times as long the proved code takes, rounded up to the two digits that are
    /// printed: it is within a bound of two digits exactly where the ratio itself is.
    pub fn ratio(&self) -> f64 {
        (self.times.register / self.times.other * 100.0).ceil() / 100.0
    }

    /// What is timed, within its table.
    fn name(&self) -> String {
        match self.on {
            On::Room(Sizes { servers, drives, slots }, state) => {
                format!("{servers},{drives},{slots} {state}")
            }
            On::Catalogue(_, case) => case.to_string(),
            On::NoRoom(_) => self.call.to_string(),
        }
    }

    /// What is timed, among all tables.
    pub fn place(&self) -> String {
        match self.on {
            On::Room(..) | On::Catalogue(..) => format!("{} {}", self.call, self.name()),
            On::NoRoom(_) => self.name(),
        }
    }

    fn print(&self) {
        let Times { register, other } = self.times;
        // A call on a room judges every cell.
        let (size, done) = match self.on {
            On::Room(sizes, _) => (sizes.length() as f64, sizes.length() as f64),
            On::Catalogue(size, _) | On::NoRoom(size) => (size, 1.0),
        };
        let (name, ratio, rate) = (self.name(), self.ratio(), done / register * 1000.0);
        println!("{name:<16} {size:>6} {register:>12.1} {other:>9.1} {ratio:>6.2} {rate:>11.0}");
    }
}

/// The lines of all tables so far.
#[derive(Default)]
pub struct Tables {
    pub lines: Vec<Line>,
}

impl Tables {
    /// Begins a table of calls on rooms.
    pub fn rooms(&self, title: &str) {
        head(title, ["room", "cells", "Mcells/s"]);
    }

    /// Begins a table of calls on records, with their mean length.
    pub fn records(&self, title: &str) {
        head(title, ["record", "bytes", "Mrecords/s"]);
    }

    /// Begins a table of calls on ballots, with how many were found.
    pub fn ballots(&self, title: &str) {
        head(title, ["ballot", "found", "Mballots/s"]);
    }

    /// Begins a table of hoard lists, with how many pieces are entered.
    pub fn lists(&self, title: &str) {
        head(title, ["catalogue", "pieces", "Mlists/s"]);
    }

    /// Prints a line and keeps it.
    pub fn line(&mut self, call: &'static str, on: On, times: Times) {
        let line = Line { call, on, times };
        line.print();
        self.lines.push(line);
    }
}

fn head(title: &str, [what, size, rate]: [&str; 3]) {
    let (proved, other) = ("proved ns", "other ns");
    println!("\n{title}");
    println!("{what:<16} {size:>6} {proved:>12} {other:>9} {:>6} {rate:>11}", "ratio");
}
