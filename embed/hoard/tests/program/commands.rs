//! Every command with every option.

use crate::common::folder::Folder;
use crate::common::program::done;

/// A scenario of four calls, one of which is refused and one answered committed.
const WORDS: &str = "\
room 1 servers 1 drives 1 slots
put 0 slot 0 strike piece 5
settle 0 slot 0
write 0 slot 0 drive 1
";

/// What is printed of it.
const PRINTED: &str = "     room 1 servers 1 drives 1 slots
   1 put 0 slot 0 strike piece 5                    done
     settle 0 slot 0
   2   recall 0 slot 0 drive 0                      done: found a blank block
   3   rejoin 0 slot 0 ballot 1                     done
   4   write 0 slot 0 drive 0                       done: wrote mbal 1, bal 0
   5   finish 0 slot 0                              chosen: strike piece 5
   6   write 0 slot 0 drive 0                       done: wrote mbal 1, bal 1, strike piece 5
   7   finish 0 slot 0                              committed: strike piece 5
     settled after 6 steps: strike piece 5
   8 write 0 slot 0 drive 1                         refused: the room has no drive 1 (4)

server 0: taken 1, skipped 1
  no piece
";

#[test]
fn run_takes_a_file_or_standard_input() {
    let file = Folder::new("run").with("words", WORDS);
    assert_eq!(String::from_utf8_lossy(&done(&["run", &file], b"not read")), PRINTED);
    assert_eq!(String::from_utf8_lossy(&done(&["run", "-"], WORDS.as_bytes())), PRINTED);
}

/// Some editors begin a text with a byte order mark.
#[test]
fn a_byte_order_mark_is_passed_over() {
    let marked = format!("\u{feff}{WORDS}");
    assert_eq!(String::from_utf8_lossy(&done(&["run", "-"], marked.as_bytes())), PRINTED);
}

/// Limits that are named stand behind the room.
#[test]
fn run_prints_the_limits() {
    let text = "room 1 servers 1 drives 1 slots # small\n\nlimits 1 2 3 4 5 6 7 8\n";
    let printed = "     room 1 servers 1 drives 1 slots\n     limits 1 2 3 4 5 6 7 8\n\n\
        server 0: taken 0, skipped 0\n  no piece\n";
    assert_eq!(String::from_utf8_lossy(&done(&["run", "-"], text.as_bytes())), printed);
}

/// Where a page is written, its name and the counts of the run are printed. What it holds is
/// looked at elsewhere.
#[test]
fn show_writes_a_file_and_says_so() {
    let folder = Folder::new("show");
    let file = folder.with("words", WORDS);
    let out = folder.file("out");
    for arguments in [
        &["show", file.as_str(), "-o", out.as_str()][..],
        &["show", "-o", &out, &file],
        &["show", &file, "-o", &out, "--svg"],
        &["show", "--svg", "-o", &out, &file],
    ] {
        let said = format!("8 calls, 1 refused, 1 committed; {out} is written\n");
        assert_eq!(String::from_utf8_lossy(&done(arguments, b"")), said);
        assert!(folder.held("out").is_some());
        std::fs::remove_file(&out).expect("the file is there");
    }
}

/// Without -o, and with -o -, the page and nothing else stands on standard output.
#[test]
fn show_prints_the_page() {
    let folder = Folder::new("show prints");
    let file = folder.with("words", WORDS);
    for options in [vec![], vec!["--svg"]] {
        let with = |more: &[&'static str]| {
            let out = more.iter().copied();
            let arguments = ["show", file.as_str()].into_iter().chain(options.clone()).chain(out);
            done(&arguments.collect::<Vec<_>>(), b"")
        };
        let printed = with(&[]);
        assert_eq!(with(&["-o", "-"]), printed);
        let out = folder.file("out");
        let arguments = ["show", &file, "-o", &out].into_iter().chain(options.clone());
        done(&arguments.collect::<Vec<_>>(), b"");
        assert_eq!(folder.held("out"), Some(printed));
    }
}

#[test]
fn a_file_may_have_any_name() {
    use std::ffi::OsStr;
    use std::os::unix::ffi::OsStrExt;

    let folder = Folder::new("names");
    for name in [&b"a b"[..], b"#1", b"\xff\xfe", "m\u{fc}nzen".as_bytes(), b"--hex"] {
        let path = std::path::PathBuf::from(folder.file("")).join(OsStr::from_bytes(name));
        std::fs::write(&path, WORDS).expect("a file is written");
        let mut command = std::process::Command::new(crate::common::program::HOARD);
        command.arg("run").arg(&path);
        let output = crate::common::program::output_of(command, b"");
        assert_eq!((output.status, output.text()), (Some(0), PRINTED), "{path:?}");
    }
}

#[test]
fn the_version_is_that_of_the_package() {
    let version = format!("hoard {}\n", env!("CARGO_PKG_VERSION"));
    assert_eq!(String::from_utf8_lossy(&done(&["--version"], b"")), version);
}
