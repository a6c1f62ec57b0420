//! Base64, as which the browser sends pictures and printed pages.

/// The bytes that are meant. Panics where the text is not Base64.
pub fn bytes(text: &str) -> Vec<u8> {
    text.trim_end_matches('=').as_bytes().chunks(4).flat_map(group).collect()
}

/// The bytes of up to four characters: one fewer, and six bits from each character.
fn group(characters: &[u8]) -> Vec<u8> {
    let bits = characters.iter().fold(0, |bits, &c| bits << 6 | sextet(c));
    let unused = 32 - 6 * characters.len();
    (bits << unused).to_be_bytes()[..characters.len() - 1].to_vec()
}

fn sextet(c: u8) -> u32 {
    let value = match c {
        b'A'..=b'Z' => c - b'A',
        b'a'..=b'z' => c - b'a' + 26,
        b'0'..=b'9' => c - b'0' + 52,
        b'+' => 62,
        b'/' => 63,
        _ => panic!("the byte {c} is not Base64"),
    };
    u32::from(value)
}
