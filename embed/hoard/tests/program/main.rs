//! The program: its command line, its help texts, what it does where files and standard input or
//! output fail, and how it shows how far a long run is.
//!
//! - `commands`: every command with every option.
//! - `help`: the help texts.
//! - `misuse`: command lines that are none.
//! - `unreadable`: files that can't be read or written.
//! - `full`: standard output and standard error that can't be written.
//! - `progress`: a long run on a terminal.

mod commands;
#[path = "../common/mod.rs"]
mod common;
mod full;
mod help;
mod misuse;
mod progress;
mod unreadable;
