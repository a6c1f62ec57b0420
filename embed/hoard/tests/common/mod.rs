//! What several of the tests use.
//!
//! - `program`: runs the program.
//! - `folder`: a folder of files for a test.
//! - `speech`: a scenario in words, written once more from what was asked for.
//! - `play`: a scenario that is made and played with the other implementation.
//! - `places`: the places that a call names.
//! - `said`: what is to be said of a call.
//! - `reason`: why a call is refused.
//! - `drawn`: any steps and any sizes, drawn from a seed.

// Each test program uses a part of this.
#![allow(dead_code)]

pub mod drawn;
pub mod folder;
pub mod places;
pub mod play;
pub mod program;
pub mod reason;
pub mod said;
pub mod speech;
