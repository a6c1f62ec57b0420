//! A text with a mistake is not played: nothing is printed, and no file is written.

use crate::common::folder::Folder;
use crate::common::program::{hoard, Output};
use crate::mistakes::texts;

/// The output of a program that says this of standard input and does nothing.
fn refused(mistake: &str) -> Output {
    Output { status: Some(1), out: Vec::new(), err: format!("hoard: standard input:{mistake}\n") }
}

#[test]
fn run_prints_nothing() {
    for (text, mistake) in texts() {
        assert_eq!(hoard(&["run", "-"], text.as_bytes()), refused(&mistake.to_string()), "{text}");
    }
}

#[test]
fn show_and_bytes_write_nothing() {
    let folder = Folder::new("unplayed");
    let there = folder.with("there", "as it was");
    let new = folder.file("new");
    let outs = [&[][..], &["-o", new.as_str()], &["-o", there.as_str()]];
    let each = ["show", "bytes"].map(|command| outs.map(|out| [&[command, "-"], out].concat()));
    for (text, mistake) in texts() {
        each.as_flattened().iter().for_each(|arguments| {
            let output = hoard(arguments, text.as_bytes());
            assert_eq!(output, refused(&mistake.to_string()), "{arguments:?} {text}");
        });
    }
    assert_eq!(folder.held("new"), None);
    assert_eq!(folder.held("there").as_deref(), Some(&b"as it was"[..]));
}

/// The mistake is in the last of many lines, and nothing of those before it is played.
#[test]
fn nothing_is_played_half() {
    let calls = "fail 0\n".repeat(5_000);
    let text = format!("room 1 servers 1 drives 1 slots\n{calls}fail\n");
    let mistake = "5002:5: found nothing, expected a number from 0 to 255 (server)";
    assert_eq!(hoard(&["run", "-"], text.as_bytes()), refused(mistake));
}

/// The name of a file stands before the mistake, so that an editor finds the place.
#[test]
fn a_file_is_named() {
    let file = Folder::new("named").with("a b.txt", "room 1 servers 1 drives 9 slots\nx");
    let output = hoard(&["run", &file], b"");
    let err = format!("hoard: {file}:2:1: found 'x', expected one of the words limits, ");
    assert!(output.err.starts_with(&err), "{}", output.err);
    assert_eq!((output.status, output.out), (Some(1), Vec::new()));
}
