//! Plays a run of the register that is written in words, and draws it.

pub mod bytes;
pub mod cli;
pub mod page;
pub mod run;
pub mod scenario;
