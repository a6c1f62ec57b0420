//! How far a long run is, on a terminal.
//!
//! The command `script` of Debian's package bsdutils makes the terminal. A run takes long here
//! where what it prints is not read for a while, however fast the machine is.

use std::process::Command;

use crate::common::folder::Folder;
use crate::common::program::{output_of, Output, HOARD};

/// How many calls a long scenario has. What is printed of it is many times what a pipe holds.
const CALLS: usize = 40_000;

/// Reads everything, some of it late.
const LATE: &str = "(sleep 1; head -c 1000000 > /dev/null; sleep 1; cat > /dev/null)";

/// A long scenario.
fn long(folder: &Folder) -> String {
    folder
        .with("long", "room 4 servers 7 drives 16 slots\n".to_string() + &"fail 0\n".repeat(CALLS))
}

/// What a shell prints where it does this with the program and the file.
fn shell(line: &str, file: &str) -> Output {
    let mut command = Command::new("sh");
    command.args(["-c", line]).env("HOARD", HOARD).env("FILE", file).env("SHELL", "/bin/sh");
    output_of(command, b"")
}

/// What stands on a terminal where a shell does this, and its status.
fn on_terminal(line: &str, file: &str) -> Output {
    shell(&format!("script -qec '{line}' /dev/null"), file)
}

/// How often the line was written, how far it says that the run is each time, of how many, and
/// what it counts.
fn told(shown: &str, of: usize, what: &str) -> Vec<usize> {
    let lines = shown.split('\r').filter_map(|line| line.strip_prefix("\x1b[Khoard: "));
    let lines = lines.filter(|line| line.contains(what));
    let numbers = lines.map(|line| {
        let (done, rest) = line.split_once(" of ").expect("so many of so many");
        let done: usize = done.parse().expect("a number");
        let share = 100 * done / of;
        assert!(rest.starts_with(&format!("{of} {what} ({share} %)")), "{rest:?}");
        done
    });
    numbers.collect()
}

#[test]
fn a_long_run_shows_how_far_it_is() {
    let file = long(&Folder::new("progress"));
    let output = on_terminal(&format!("\"$HOARD\" run \"$FILE\" | {LATE}"), &file);
    assert_eq!(output.status, Some(0));
    let shown = output.text();
    let numbers = told(shown, CALLS, "lines played");
    assert!(numbers.len() > 1 && numbers.is_sorted(), "{shown:?}");
    assert!(numbers.iter().all(|&played| 0 < played && played < CALLS), "{numbers:?}");
    // The line is taken away, and nothing else is shown.
    assert!(shown.starts_with("\r\x1b[Khoard") && shown.ends_with(" %)\r\x1b[K"), "{shown:?}");
    assert_eq!(shown.matches('\r').count(), numbers.len() + 1);
}

/// The line is taken away before a failure is named that comes later.
#[test]
fn the_line_is_taken_away_where_the_output_fails() {
    let file = long(&Folder::new("progress fails"));
    let run = "(\"$HOARD\" run \"$FILE\"; echo \"status $?\" >&2)";
    let output = on_terminal(&format!("{run} | (sleep 1; head -c 1000000 > /dev/null)"), &file);
    let shown = output.text();
    let end = "\r\x1b[Khoard: standard output can't be written: Broken pipe (os error 32)\r\n\
               status 1\r\n";
    let progress = shown.strip_suffix(end).expect("the line is taken away");
    assert!(!told(progress, CALLS, "lines played").is_empty(), "{shown:?}");
}

/// A run that is drawn shows how far the drawing is, too, and then what was written.
#[test]
fn a_long_drawing_shows_how_far_it_is() {
    const MANY: usize = 120_000;
    let room = "room 2 servers 3 drives 1 slots\n".to_string();
    let text = room + &"recall 0 slot 0 drive 0\n".repeat(MANY);
    let file = Folder::new("drawing").with("long", text);
    for option in ["", "--svg"] {
        let line = format!("exec \"$HOARD\" show \"$FILE\" {option} -o /dev/null");
        let output = on_terminal(&line, &file);
        assert_eq!(output.status, Some(0));
        let shown = output.text();
        let numbers = told(shown, MANY, "calls drawn");
        assert!(!numbers.is_empty() && numbers.is_sorted(), "{shown:?}");
        assert!(numbers.iter().all(|&drawn| drawn < MANY), "{numbers:?}");
        let end = format!("\r\x1b[K{MANY} calls, 0 refused, 0 committed; /dev/null is written\r\n");
        assert!(shown.ends_with(&end), "{shown:?}");
    }
}

/// Nothing is shown where standard error is no terminal.
#[test]
fn nothing_is_shown_without_a_terminal() {
    let file = long(&Folder::new("no terminal"));
    let output = shell(&format!("\"$HOARD\" run \"$FILE\" | {LATE}"), &file);
    assert_eq!((output.status, output.text(), output.err.as_str()), (Some(0), "", ""));
}

/// Where the lines of the run stand on the terminal, nothing is shown between them.
#[test]
fn nothing_is_shown_between_the_lines_of_a_run() {
    let file = long(&Folder::new("between"));
    let line = "script -qec 'exec \"$HOARD\" run \"$FILE\"' /dev/null | (sleep 1; cat)";
    let shown = shell(line, &file);
    let printed = shell("exec \"$HOARD\" run \"$FILE\"", &file);
    assert!(printed.text().lines().count() > CALLS);
    assert!(shown.text().replace("\r\n", "\n") == printed.text());
}

#[test]
fn a_short_run_shows_nothing() {
    let short = "room 1 servers 1 drives 1 slots\nfail 0\n";
    let file = Folder::new("short run").with("short", short);
    let output = on_terminal("exec \"$HOARD\" run \"$FILE\" > /dev/null", &file);
    assert_eq!((output.status, output.text()), (Some(0), ""));
}
