//! The hexadecimal examples are scenarios, and the bytes of these are those of the examples.

use std::fs;
use std::path::{Path, PathBuf};

use hoard::bytes::of_hexadecimal;
use other::rehearse;

use crate::common::program::done;

/// The hexadecimal examples of the repository.
fn examples() -> Vec<PathBuf> {
    let folder = Path::new(env!("CARGO_MANIFEST_DIR")).join("../../examples");
    let files = fs::read_dir(folder).expect("the examples are there");
    let files = files.map(|file| file.expect("a file is named").path());
    files.filter(|file| file.extension().is_some_and(|end| end == "hex")).collect()
}

/// The bytes of an example, and what it says that rehearse prints.
fn read(file: &Path) -> (Vec<u8>, String) {
    let text = fs::read_to_string(file).expect("an example is text");
    let (mut bytes, mut printed) = (Vec::new(), String::new());
    for line in text.lines() {
        let (pairs, comment) = line.split_once('#').unwrap_or((line, ""));
        let byte = |pair| u8::from_str_radix(pair, 16).expect("two digits");
        bytes.extend(pairs.split_whitespace().map(byte));
        if let Some((_, line)) = comment.split_once("-> ") {
            printed += &(line.to_string() + "\n");
        }
    }
    (bytes, printed)
}

#[test]
fn the_words_of_an_example_have_its_bytes() {
    let examples = examples();
    assert!(!examples.is_empty());
    for file in examples {
        let name = file.to_str().expect("the path is text");
        let (bytes, printed) = read(&file);
        let words = done(&["words", "--hex", name], b"");
        let digits = String::from_utf8(done(&["bytes", "--hex", "-"], &words));
        let digits = digits.expect("digits are text");
        assert_eq!(of_hexadecimal(&digits).as_ref(), Ok(&bytes), "{name}");
        assert_eq!(done(&["bytes", "-"], &words), bytes, "{name}");
        assert_eq!(String::from_utf8_lossy(&rehearse(&bytes)), printed, "{name}");
        assert_eq!(done(&["words", "--hex", "-"], digits.as_bytes()), words, "{name}");
    }
}
