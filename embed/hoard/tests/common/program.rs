//! Runs the program.

use std::io::Write;
use std::process::{Command, Stdio};

/// The program.
pub const HOARD: &str = env!("CARGO_BIN_EXE_hoard");

/// What a run of the program left.
#[derive(Clone, Debug, PartialEq, Eq)]
pub struct Output {
    /// Its exit status, none where a signal ended it.
    pub status: Option<i32>,
    /// What stands on standard output.
    pub out: Vec<u8>,
    /// What stands on standard error.
    pub err: String,
}

impl Output {
    /// Standard output as text.
    pub fn text(&self) -> &str {
        std::str::from_utf8(&self.out).expect("standard output is text")
    }
}

/// Runs the program with these arguments and these bytes on standard input.
pub fn hoard(arguments: &[&str], input: &[u8]) -> Output {
    let mut command = Command::new(HOARD);
    command.args(arguments);
    output_of(command, input)
}

/// The output of a command that succeeds and says nothing on standard error.
pub fn done(arguments: &[&str], input: &[u8]) -> Vec<u8> {
    let output = hoard(arguments, input);
    assert_eq!((output.status, output.err.as_str()), (Some(0), ""), "{arguments:?}");
    output.out
}

/// Runs a command with these bytes on standard input.
pub fn output_of(mut command: Command, input: &[u8]) -> Output {
    command.stdin(Stdio::piped()).stdout(Stdio::piped()).stderr(Stdio::piped());
    let mut child = command.spawn().expect("the program starts");
    let mut to = child.stdin.take().expect("standard input is a pipe");
    let output = std::thread::scope(|scope| {
        // What it prints is read meanwhile, so that neither waits for the other. It may end
        // before it has read all.
        scope.spawn(move || to.write_all(input));
        child.wait_with_output().expect("the program ends")
    });
    let err = String::from_utf8_lossy(&output.stderr).into_owned();
    Output { status: output.status.code(), out: output.stdout, err }
}
