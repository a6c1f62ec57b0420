//! Scenarios as the bytes that rehearse reads, and back.
//!
//! - `rehearsed`: what rehearse makes of the bytes of a scenario.
//! - `forms`: raw bytes and hexadecimal digits, files and standard input and output.
//! - `refused`: scenarios that have no bytes, and bytes that are no scenario.
//! - `examples`: the hexadecimal examples.

#[path = "../common/mod.rs"]
mod common;
mod examples;
mod forms;
mod refused;
mod rehearsed;
