//! Bytes as text: pairs of hexadecimal digits with blanks between them. `#` starts a comment.

use register::Step;

use crate::scenario::{lines, Mistake};

/// The bytes of a scenario as text: the sizes, and then each record, on a line of its own.
pub fn hexadecimal(bytes: &[u8]) -> String {
    let (sizes, mut left) = bytes.split_at(bytes.len().min(3));
    let mut text = digits(sizes);
    while !left.is_empty() {
        let used = Step::read(left).map_or(left.len(), |(_, used)| used);
        text += &digits(&left[..used]);
        left = &left[used..];
    }
    text
}

/// Bytes on a line.
fn digits(bytes: &[u8]) -> String {
    let pairs: Vec<String> = bytes.iter().map(|byte| format!("{byte:02x}")).collect();
    pairs.join(" ") + "\n"
}

/// The bytes of such a text.
///
/// ```
/// use hoard::bytes::of_hexadecimal;
///
/// assert_eq!(of_hexadecimal("01 0a # and\n fF"), Ok(vec![1, 10, 255]));
/// let mistake = of_hexadecimal("01\n 1").unwrap_err();
/// assert_eq!(mistake.to_string(), "2:2: found '1', expected two hexadecimal digits");
/// ```
///
/// # Errors
///
/// The first word that is no byte.
pub fn of_hexadecimal(text: &str) -> Result<Vec<u8>, Mistake> {
    let read = lines(text).map(|line| line.all(pair, "two hexadecimal digits"));
    read.collect::<Result<Vec<_>, _>>().map(|bytes| bytes.concat())
}

/// The byte of two digits.
fn pair(word: &str) -> Option<u8> {
    let digits = word.len() == 2 && word.bytes().all(|digit| digit.is_ascii_hexdigit());
    digits.then(|| u8::from_str_radix(word, 16).ok()).flatten()
}
