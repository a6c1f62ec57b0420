//! What `hoard run` prints.

use std::io::{self, Write};

use register::Catalogue;

use crate::run::{answer, catalogue_table, Moment};
use crate::scenario::{Scenario, Sizes, Spoken};

/// Where the answers begin.
const CALLS: usize = 46;

/// The lines of a run, as they are printed.
pub struct Lines<W> {
    /// Where they are printed.
    pub out: W,
    sizes: Sizes,
    /// Whether the steps of a settle are printed.
    settling: bool,
}

impl<W: Write> Lines<W> {
    /// The lines of a run in a room of these sizes.
    pub fn new(out: W, sizes: Sizes) -> Lines<W> {
        Lines { out, sizes, settling: false }
    }

    /// The first lines: the room, and its limits where the scenario names them.
    pub fn room(&mut self, scenario: &Scenario) -> io::Result<()> {
        let lines = scenario.opening();
        lines.lines().try_for_each(|line| writeln!(self.out, "     {line}"))
    }

    /// What happens next.
    pub fn moment(&mut self, moment: &Moment) -> io::Result<()> {
        match moment {
            &Moment::Begins { server, slot } => {
                self.settling = true;
                writeln!(self.out, "     {}", Spoken::Settle { server, slot })
            }
            Moment::Made(event) => {
                let call = event.call.to_string();
                let call = if self.settling { format!("  {call}") } else { call };
                let answer = answer(event, self.sizes);
                writeln!(self.out, "{:4} {call:CALLS$} {answer}", event.number)
            }
            Moment::Ends(ending) => {
                self.settling = false;
                writeln!(self.out, "     {ending}")
            }
        }
    }

    /// The catalogue of a server.
    pub fn catalogue(&mut self, server: u32, catalogue: &Catalogue) -> io::Result<()> {
        write!(self.out, "\n{}", catalogue_table(server, catalogue))
    }
}
