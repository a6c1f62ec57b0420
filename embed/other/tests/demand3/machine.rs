//! The one-value machine of a slot.

use std::collections::BTreeSet;

/// The machine. It is fed with calls and answers, never with cells.
#[derive(Default)]
pub struct Machine {
    pub offer: [Option<u32>; 4],
    pub output: [Option<u32>; 4],
    pub chosen: Option<u32>,
    given: BTreeSet<u32>,
}

impl Machine {
    pub fn offer(&mut self, server: usize, command: u32) {
        self.offer[server] = Some(command);
        self.given.insert(command);
    }

    /// Whether the slot is free for the server. In a run, a server in phase 3 has
    /// an output.
    pub fn is_free(&self, server: usize) -> bool {
        self.offer[server].is_none() && self.output[server].is_none()
    }

    /// The choice is the command of the first committed answer. No other can
    /// match, for the output is compared after this step.
    pub fn choose(&mut self, server: usize, choice: u32) {
        assert_eq!(self.output[server], None, "output twice");
        if self.chosen.is_none() {
            assert!(self.given.contains(&choice), "{choice} was not offered before");
            self.chosen = Some(choice);
        }
        self.output[server] = self.chosen;
    }

    pub fn fail(&mut self, server: usize) {
        self.offer[server] = None;
        self.output[server] = None;
    }
}
