//! Plays a run of the register that is written in words, and draws it.

use std::process::ExitCode;

fn main() -> ExitCode {
    hoard::cli::main(std::env::args_os().skip(1).collect())
}
