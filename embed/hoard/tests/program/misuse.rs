//! Command lines that are none: what is wrong is named on standard error, and nothing is done.

use std::ffi::OsStr;
use std::os::unix::ffi::OsStrExt;
use std::process::Command;

use crate::common::folder::Folder;
use crate::common::program::{hoard, output_of, Output, HOARD};

/// Arguments, what is said of them, and the word whose help text is named.
const MISUSED: [(&[&str], &str, &str); 35] = [
    (&[], "a word is missing: run, show, bytes, words", ""),
    (&["play"], "unknown word 'play'", ""),
    (&["Run", "FILE"], "unknown word 'Run'", ""),
    (&["words-"], "unknown word 'words-'", ""),
    (&[""], "unknown word ''", ""),
    (&["FILE", "run"], "unknown word 'FILE'", ""),
    (&["--bogus"], "unknown option '--bogus'", ""),
    (&["--version", "run"], "a word too many: 'run'", ""),
    (&["--help", "run"], "a word too many: 'run'", ""),
    (&["help", "run", "show"], "a word too many: 'show'", ""),
    (&["help", "play"], "unknown word 'play'", ""),
    (&["bytes", "FILE", "-o", "--hex"], "-o names no file", "bytes "),
    (&["run"], "a file is missing", "run "),
    (&["show"], "a file is missing", "show "),
    (&["bytes", "--hex"], "a file is missing", "bytes "),
    (&["words", "-o", "OUT"], "a file is missing", "words "),
    (&["run", "FILE", "OUT"], "a file too many: 'OUT'", "run "),
    (&["show", "FILE", "-", "-o", "OUT"], "a file too many: '-'", "show "),
    (&["bytes", "FILE", "OUT", "more"], "a file too many: 'OUT'", "bytes "),
    (&["words", "FILE", "OUT"], "a file too many: 'OUT'", "words "),
    (&["run", "FILE", "-o", "OUT"], "unknown option '-o'", "run "),
    (&["run", "FILE", "--hex"], "unknown option '--hex'", "run "),
    (&["run", "--", "FILE"], "unknown option '--'", "run "),
    (&["show", "FILE", "-o", "OUT", "--hex"], "unknown option '--hex'", "show "),
    (&["bytes", "FILE", "-o", "OUT", "--svg"], "unknown option '--svg'", "bytes "),
    (&["bytes", "FILE", "-oOUT"], "unknown option '-oOUT'", "bytes "),
    (&["words", "FILE", "--out", "OUT"], "unknown option '--out'", "words "),
    (&["show", "FILE", "-o"], "-o names no file", "show "),
    (&["show", "-o", "OUT", "FILE", "-o", "OUT"], "-o stands there twice", "show "),
    (&["bytes", "FILE", "--hex", "-o"], "-o names no file", "bytes "),
    (&["fail"], "'fail' is a word of a scenario; 'hoard run FILE' plays one", "fail "),
    (&["offer", "0"], "'offer' is a word of a scenario; 'hoard run FILE' plays one", "offer "),
    (&["room", "FILE"], "'room' is a word of a scenario; 'hoard run FILE' plays one", "room "),
    (&["enter"], "'enter' is a word of a scenario; 'hoard run FILE' plays one", "enter "),
    (&["settle", "-o", "OUT"], "unknown option '-o'", "settle "),
];

#[test]
fn what_is_wrong_is_named() {
    let folder = Folder::new("misuse");
    let scenario = "room 1 servers 1 drives 1 slots\n";
    let (file, out) = (folder.with("file", scenario), folder.file("out"));
    for (arguments, reason, word) in MISUSED {
        let named = |argument: &&'static str| match *argument {
            "FILE" => file.clone(),
            "OUT" => out.clone(),
            other => other.to_string(),
        };
        let given: Vec<String> = arguments.iter().map(named).collect();
        let given: Vec<&str> = given.iter().map(String::as_str).collect();
        let reason = reason.replace("'OUT'", &format!("'{out}'"));
        let reason = reason.replace("'FILE'", &format!("'{file}'"));
        let err = format!("hoard: {reason}\nTry 'hoard {word}--help'.\n");
        let expected = Output { status: Some(2), out: Vec::new(), err };
        assert_eq!(hoard(&given, scenario.as_bytes()), expected, "{arguments:?}");
    }
    assert_eq!(folder.held("out"), None);
}

/// The help text that is named is there.
#[test]
fn the_help_text_is_there() {
    for (_, _, word) in MISUSED {
        let arguments: Vec<&str> = word.split_whitespace().chain(["--help"]).collect();
        assert_eq!(hoard(&arguments, b"").status, Some(0), "{word}");
    }
}

#[test]
fn a_word_that_is_no_text_is_unknown() {
    let mut command = Command::new(HOARD);
    command.arg(OsStr::from_bytes(b"r\xffn"));
    let output = output_of(command, b"");
    assert_eq!((output.status, output.out), (Some(2), Vec::new()));
    assert!(output.err.starts_with("hoard: unknown word 'r\u{fffd}n'\n"), "{}", output.err);
}
