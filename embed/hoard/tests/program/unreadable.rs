//! Files that can't be read or written: which one and why is said on standard error.

use std::fs::{self, Permissions};
use std::os::unix::fs::{symlink, PermissionsExt};
use std::process::Command;

use crate::common::folder::Folder;
use crate::common::program::{done, hoard, output_of, Output, HOARD};

/// The commands that read a scenario or digits, which are text.
const OF_TEXT: [&[&str]; 5] =
    [&["run"], &["show"], &["show", "--svg"], &["bytes"], &["words", "--hex"]];

/// A scenario, also as digits.
const WORDS: &str = "room 1 servers 1 drives 1 slots\n";
const DIGITS: &str = "01 01 01\n";

/// Asserts that a command fails with these words, on standard error alone.
fn fails(arguments: &[&str], input: &[u8], words: &str) {
    let expected = Output { status: Some(1), out: Vec::new(), err: format!("hoard: {words}\n") };
    assert_eq!(hoard(arguments, input), expected, "{arguments:?}");
}

#[test]
fn a_file_that_is_not_there_is_named() {
    let folder = Folder::new("not there");
    let missing = folder.file("no file");
    let words = format!("{missing} can't be read: No such file or directory (os error 2)");
    for command in OF_TEXT.into_iter().chain([&["words"][..]]) {
        let arguments: Vec<&str> = command.iter().copied().chain([missing.as_str()]).collect();
        fails(&arguments, b"", &words);
    }
    assert_eq!(folder.held("no file"), None);
}

#[test]
fn a_folder_is_named() {
    let folder = Folder::new("a folder").file("");
    let words = format!("{folder} can't be read: Is a directory (os error 21)");
    for command in OF_TEXT.into_iter().chain([&["words"][..]]) {
        let arguments: Vec<&str> = command.iter().copied().chain([folder.as_str()]).collect();
        fails(&arguments, b"", &words);
    }
}

/// A file whose name goes on behind that of another file.
#[test]
fn a_file_is_no_folder() {
    let file = Folder::new("no folder").with("file", WORDS) + "/file";
    fails(&["run", &file], b"", &format!("{file} can't be read: Not a directory (os error 20)"));
}

#[test]
fn bytes_that_are_no_text_are_named() {
    let folder = Folder::new("no text");
    for (name, bytes, at) in [
        ("first", &b"\xff"[..], 0),
        ("later", b"room 1 servers 1 drives 1 slots\n# m\xfcnzen\n", 35),
        ("cut short", b"room 1 servers 1 drives 1 slots\n# \xe2\x82", 34),
        ("two bytes", b"r\0\0o\xfe\xff", 4),
    ] {
        let file = folder.with(name, bytes);
        no_text(&file, b"", &format!("{file} is no text: byte {at} is not UTF-8"));
        no_text("-", bytes, &format!("standard input is no text: byte {at} is not UTF-8"));
    }
}

/// Asserts that every command that reads text fails with these words.
fn no_text(file: &str, input: &[u8], words: &str) {
    for command in OF_TEXT {
        let arguments: Vec<&str> = command.iter().copied().chain([file]).collect();
        fails(&arguments, input, words);
    }
}

#[test]
fn a_file_that_cannot_be_written_is_named() {
    let folder = Folder::new("not written");
    let (beyond, here) = (folder.file("none/out"), folder.file(""));
    for (out, reason) in [
        (beyond.as_str(), "No such file or directory (os error 2)"),
        (here.as_str(), "Is a directory (os error 21)"),
        ("/dev/full", "No space left on device (os error 28)"),
    ] {
        let words = format!("{out} can't be written: {reason}");
        fails(&["bytes", "-", "-o", out], WORDS.as_bytes(), &words);
        fails(&["bytes", "--hex", "-", "-o", out], WORDS.as_bytes(), &words);
        fails(&["words", "-", "-o", out], &[1, 1, 1], &words);
        fails(&["words", "--hex", "-", "-o", out], DIGITS.as_bytes(), &words);
    }
}

#[test]
fn a_page_that_cannot_be_written_is_named() {
    let folder = Folder::new("no page");
    for out in [folder.file("none/out"), folder.file("")] {
        let output = hoard(&["show", "-", "-o", &out], WORDS.as_bytes());
        assert_eq!((output.status, output.out), (Some(1), Vec::new()));
        let begin = format!("hoard: {out} can't be written: ");
        assert!(output.err.starts_with(&begin), "{}", output.err);
    }
}

/// A file is not written over itself, under whatever name.
#[test]
fn a_file_is_not_written_over_itself() {
    let folder = Folder::new("itself");
    let (words, bytes) = (folder.with("words", WORDS), folder.with("bytes", [1, 1, 1]));
    let again = folder.file("../itself/words");
    for (arguments, file) in [
        (["bytes", words.as_str(), "-o", words.as_str()], &words),
        (["show", &words, "-o", &again], &words),
        (["words", &bytes, "-o", &bytes], &bytes),
    ] {
        fails(&arguments, b"", &format!("{file} would be written over itself"));
    }
    assert_eq!(folder.held("words").as_deref(), Some(WORDS.as_bytes()));
    assert_eq!(folder.held("bytes").as_deref(), Some(&[1, 1, 1][..]));
}

/// Digits that are read as bytes are told from others.
#[test]
fn digits_are_read_with_an_option() {
    let words = "standard input: the room is not opened: the sizes fit no room: 1 to 4 servers, \
                 1 to 7 drives, 1 to 16 slots (refusal 1); --hex reads hexadecimal digits";
    fails(&["words", "-"], DIGITS.as_bytes(), words);
}

/// Where a file can't be written whole, the one that stood there stays, and nothing beside it.
#[test]
fn a_file_is_written_whole_or_not_at_all() {
    let folder = Folder::new("whole");
    let (words, out) = (folder.with("words", WORDS), folder.with("out", "old"));
    let mut limited = Command::new("sh");
    // No file may be larger than four kilobytes.
    let line = "trap '' XFSZ; ulimit -f 8; exec \"$0\" show \"$1\" -o \"$2\"";
    limited.args(["-c", line, HOARD, &words, &out]);
    let output = output_of(limited, b"");
    assert_eq!((output.status, output.out), (Some(1), Vec::new()));
    let begin = format!("hoard: {out} can't be written: ");
    assert!(output.err.starts_with(&begin), "{}", output.err);
    assert_eq!(folder.held("out").as_deref(), Some(&b"old"[..]));
    let files = fs::read_dir(folder.file("")).expect("the folder is there");
    assert_eq!(files.count(), 2);
}

/// What a message shows of a word does nothing on a terminal, and is not long.
#[test]
fn a_word_is_shown_as_text() {
    let text = format!("{WORDS}fail \u{1b}[2J\n");
    let words = "standard input:2:6: found '\\u{1b}[2J', expected a number from 0 to 255 (server)";
    fails(&["run", "-"], text.as_bytes(), words);
    let text = format!("{WORDS}fail {}\n", "x".repeat(100_000));
    let words = format!(
        "standard input:2:6: found '{}...', expected a number from 0 to 255 (server)",
        "x".repeat(40)
    );
    fails(&["run", "-"], text.as_bytes(), &words);
}

/// A file that is written anew keeps its permissions, a link stays one, and a long name is no
/// hindrance.
#[test]
fn a_file_is_written_where_it_stands() {
    let folder = Folder::new("stands");
    let (words, real) = (folder.with("words", WORDS), folder.with("real", "old"));
    fs::set_permissions(&real, Permissions::from_mode(0o640)).expect("the mode is set");
    let (link, loose) =
        (Link::new(&folder, "link", "real"), Link::new(&folder, "loose", "nothing"));
    let long = "x".repeat(250);
    for out in [&link.0, &loose.0, &folder.file(&long)] {
        done(&["bytes", "--hex", &words, "-o", out], b"");
    }
    for name in ["real", "link", "nothing", "loose", &long] {
        assert_eq!(folder.held(name).as_deref(), Some(DIGITS.as_bytes()), "{name}");
    }
    let mode = fs::metadata(&real).expect("the file is there").permissions().mode();
    assert_eq!(mode & 0o777, 0o640);
    let is_link = |file: &str| fs::symlink_metadata(file).is_ok_and(|found| found.is_symlink());
    assert!(is_link(&link.0) && is_link(&loose.0));
}

/// A link, which goes with the test: rt refuses a checkout that has one.
struct Link(String);

impl Link {
    /// A link of this name in the folder, to another name there.
    fn new(folder: &Folder, name: &str, to: &str) -> Link {
        let link = Link(folder.file(name));
        symlink(to, &link.0).expect("a link is made");
        link
    }
}

impl Drop for Link {
    fn drop(&mut self) {
        let _ = fs::remove_file(&self.0);
    }
}
