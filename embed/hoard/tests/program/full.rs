//! Standard output and standard error that can't be written: no panic, and the status says so.

use std::fs::File;
use std::io::{Read, Write};
use std::process::{Child, Command, Stdio};

use crate::common::folder::Folder;
use crate::common::program::{Output, HOARD};

/// A scenario, and one of which more is printed than a pipe holds.
const SHORT: &str = "room 1 servers 1 drives 1 slots\nfail 0\n";
const CALLS: usize = 5_000;

/// A scenario of many calls.
fn long() -> String {
    SHORT.to_string() + &"fail 0\n".repeat(CALLS)
}

/// A device on which nothing can be written.
fn full() -> File {
    File::options().write(true).open("/dev/full").expect("Linux has this device")
}

/// The output of a command without the standard output that it wrote.
fn ends(child: Child) -> Output {
    let output = child.wait_with_output().expect("the program ends");
    let err = String::from_utf8_lossy(&output.stderr).into_owned();
    Output { status: output.status.code(), out: output.stdout, err }
}

/// What is left where standard output has this fault.
fn unwritten(reason: &str) -> Output {
    let err = format!("hoard: standard output can't be written: {reason}\n");
    Output { status: Some(1), out: Vec::new(), err }
}

#[test]
fn standard_output_may_be_full() {
    let folder = Folder::new("full");
    let (short, long) = (folder.with("short", SHORT), folder.with("long", long()));
    let bytes = folder.with("bytes", [1, 1, 1]);
    let page = folder.file("page");
    for arguments in [
        &["run", &short][..],
        &["run", &long],
        &["show", &short, "-o", &page],
        &["bytes", &short],
        &["bytes", &short, "--hex"],
        &["words", &bytes],
        &["--help"],
        &["fail", "--help"],
        &["--version"],
    ] {
        let mut command = Command::new(HOARD);
        command.args(arguments).stdin(Stdio::null()).stdout(full()).stderr(Stdio::piped());
        let output = ends(command.spawn().expect("the program starts"));
        assert_eq!(output, unwritten("No space left on device (os error 28)"), "{arguments:?}");
    }
    // The page itself was written.
    assert!(folder.held("page").is_some());
}

/// Where standard error can't be written either, the status is the same.
#[test]
fn standard_error_may_be_full() {
    let missing = Folder::new("error full").file("none");
    for (arguments, status) in [
        (&["run", &missing][..], 1),
        (&["bytes", &missing], 1),
        (&["run"], 2),
        (&["play"], 2),
        (&[], 2),
    ] {
        let mut command = Command::new(HOARD);
        command.args(arguments).stdin(Stdio::null()).stdout(full()).stderr(full());
        let found = command.status().expect("the program starts");
        assert_eq!(found.code(), Some(status), "{arguments:?}");
    }
}

/// A program with pipes that reads standard input.
fn piped(command: &str) -> Child {
    let mut child = Command::new(HOARD);
    child.args([command, "-"]).stdin(Stdio::piped()).stdout(Stdio::piped());
    child.stderr(Stdio::piped()).spawn().expect("the program starts")
}

/// Gives a program its standard input, to the end.
fn give(child: &mut Child, input: &[u8]) {
    let mut to = child.stdin.take().expect("standard input is a pipe");
    to.write_all(input).expect("the program reads it");
}

#[test]
fn a_pipe_may_be_closed_before() {
    for (command, input) in [
        ("run", SHORT.as_bytes()),
        ("run", long().as_bytes()),
        ("bytes", SHORT.as_bytes()),
        ("words", &[1, 1, 1]),
    ] {
        let mut child = piped(command);
        // Nothing is printed before standard input ends.
        drop(child.stdout.take());
        give(&mut child, input);
        assert_eq!(ends(child), unwritten("Broken pipe (os error 32)"), "{command}");
    }
}

#[test]
fn a_pipe_may_be_closed_in_between() {
    let mut child = piped("run");
    give(&mut child, long().as_bytes());
    let mut begin = [0; 32];
    let mut from = child.stdout.take().expect("standard output is a pipe");
    from.read_exact(&mut begin).expect("something is printed");
    assert_eq!(&begin, b"     room 1 servers 1 drives 1 s");
    drop(from);
    assert_eq!(ends(child), unwritten("Broken pipe (os error 32)"));
}
