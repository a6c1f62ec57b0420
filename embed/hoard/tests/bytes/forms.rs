//! Raw bytes and hexadecimal digits, files and standard input and output.

use crate::common::drawn;
use crate::common::folder::Folder;
use crate::common::play::Play;
use crate::common::program::{done, hoard};
use crate::rehearsed::plays;

/// A scenario that has each way to be left out or stand as something else, by hand.
const WORDS: &str = "\
room 1 servers 1 drives 2 slots
put 0 slot 0 enter piece 5 hoard 9 # an offer
put 0 slot 0 enter piece 5 hoard 8 # refused: the slot is not free
ask 0 # slot 1
settle 0 slot 0
write 0 slot 0 drive 255 # refused, but a step
bid 0 slot 1 ballot 4294967295
drive 0 off
settle 0 slot 1 # refused
";

/// Its bytes as digits.
const DIGITS: &str = "\
01 01 02
10 01 09 05 01 00
00 02
10 03 01 00 00 00
00 05
00 07
00 05
00 07
04 05 ff
12 04 01 ff ff ff ff
00 09
";

/// The bytes of such digits.
fn bytes_of(digits: &str) -> Vec<u8> {
    let byte = |pair| u8::from_str_radix(pair, 16).expect("two digits");
    digits.split_whitespace().map(byte).collect()
}

#[test]
fn the_bytes_are_these() {
    assert_eq!(
        String::from_utf8(done(&["bytes", "-", "--hex"], WORDS.as_bytes())),
        Ok(DIGITS.into())
    );
    assert_eq!(done(&["bytes", "-"], WORDS.as_bytes()), bytes_of(DIGITS));
}

#[test]
fn the_words_are_these() {
    let words = "\
room 1 servers 1 drives 2 slots
offer 0 slot 0 enter piece 5 hoard 9
recall 0 slot 0 drive 0
rejoin 0 slot 0 ballot 1
write 0 slot 0 drive 0
finish 0 slot 0
write 0 slot 0 drive 0
finish 0 slot 0
write 0 slot 0 drive 255
bid 0 slot 1 ballot 4294967295
drive 0 off
";
    assert_eq!(String::from_utf8(done(&["words", "-"], &bytes_of(DIGITS))), Ok(words.into()));
    assert_eq!(
        String::from_utf8(done(&["words", "--hex", "-"], DIGITS.as_bytes())),
        Ok(words.into())
    );
}

/// Each way to name the files gives the same, and nothing is printed where a file is written.
#[test]
fn files_and_standard_input_and_output_are_the_same() {
    let folder = Folder::new("forms");
    let words = folder.with("words", WORDS);
    let bytes = bytes_of(DIGITS);
    let (raw, hex) = (folder.file("raw"), folder.file("hex"));
    assert_eq!(done(&["bytes", &words], b""), bytes);
    assert_eq!(done(&["bytes", &words, "-o", "-"], b""), bytes);
    assert_eq!(done(&["bytes", &words, "-o", &raw], b""), b"");
    assert_eq!(folder.held("raw").as_ref(), Some(&bytes));
    assert_eq!(done(&["bytes", "-o", &hex, "--hex", "-"], WORDS.as_bytes()), b"");
    assert_eq!(folder.held("hex").as_deref(), Some(DIGITS.as_bytes()));
    let back = done(&["words", &raw], b"");
    for (arguments, name) in [
        (vec!["words", &raw, "-o"], "1"),
        (vec!["words", "--hex", &hex, "-o"], "2"),
        (vec!["words", &hex, "--hex", "-o"], "3"),
    ] {
        let out = folder.file(name);
        let arguments: Vec<&str> = arguments.into_iter().chain([out.as_str()]).collect();
        assert_eq!(done(&arguments, b""), b"");
        assert_eq!(folder.held(name).as_ref(), Some(&back));
    }
}

/// A file that is there is written anew, and not only its first bytes.
#[test]
fn a_longer_file_is_replaced() {
    let folder = Folder::new("longer");
    let out = folder.with("out", [7; 1_000]);
    done(&["bytes", "-", "-o", &out], WORDS.as_bytes());
    assert_eq!(folder.held("out"), Some(bytes_of(DIGITS)));
}

/// The sizes of a run and the records of its steps as digits, each on a line.
fn digits_of(play: &Play) -> String {
    let records = play.made().filter_map(|made| made.step()).map(drawn::record);
    let lines = std::iter::once(drawn::head(play.sizes)).chain(records).map(|line| {
        let pairs: Vec<String> = line.iter().map(|byte| format!("{byte:02x}")).collect();
        pairs.join(" ") + "\n"
    });
    lines.collect()
}

#[test]
fn digits_and_bytes_are_the_same() {
    for play in plays(10, 40) {
        let digits = digits_of(&play);
        let found = done(&["bytes", "-", "--hex"], play.text.as_bytes());
        assert_eq!(String::from_utf8(found).as_deref(), Ok(digits.as_str()));
        let words = done(&["words", "-", "--hex"], digits.as_bytes());
        assert_eq!(words, done(&["words", "-"], &play.bytes()));
    }
}

/// Digits may be large, stand on any line, and have comments behind them.
#[test]
fn digits_are_read_in_any_layout() {
    let text = "# a room\r\n01\t01 02# sizes\n\n  04 0A FF # drive 255 on\n 04\n0a\nfF";
    let words = "room 1 servers 1 drives 2 slots\ndrive 255 on\ndrive 255 on\n";
    assert_eq!(
        String::from_utf8(done(&["words", "--hex", "-"], text.as_bytes())),
        Ok(words.into())
    );
}

#[test]
fn a_pair_that_is_none_is_named() {
    for (text, mistake) in [
        ("01 01 0g", "1:7: found '0g'"),
        ("01 01 01\n 1", "2:2: found '1'"),
        ("01 01 010", "1:7: found '010'"),
        ("0x01 01 01", "1:1: found '0x01'"),
        ("01 01 +1", "1:7: found '+1'"),
        ("01 01 01\n# 02\n00 \u{e4}", "3:4: found '\u{e4}'"),
    ] {
        let output = hoard(&["words", "--hex", "-"], text.as_bytes());
        let err = format!("hoard: standard input:{mistake}, expected two hexadecimal digits\n");
        assert_eq!((output.status, output.out, output.err), (Some(1), Vec::new(), err));
    }
}
