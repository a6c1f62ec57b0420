//! The catalogue of a server as a table.

use register::{Catalogue, Entry, PIECES};

/// The pieces of a catalogue that are entered or were struck, each with its hoard, or none
/// where it was struck.
pub fn entries(catalogue: &Catalogue) -> Vec<(u8, Option<u8>)> {
    let entry = |piece| match catalogue.entry(piece)? {
        Entry::Absent => None,
        Entry::Entered(hoard) => Some((piece, Some(hoard))),
        Entry::Struck => Some((piece, None)),
    };
    (0..PIECES as u8).filter_map(entry).collect()
}

/// The hoard of an entry in words.
pub fn hoard_words(hoard: Option<u8>) -> String {
    hoard.map_or_else(|| "struck".to_string(), |hoard| hoard.to_string())
}

/// How many commands a server took, and how many of these were skipped.
pub fn counts(server: u32, catalogue: &Catalogue) -> String {
    format!("server {server}: taken {}, skipped {}", catalogue.taken, catalogue.skipped)
}

/// The lines of a catalogue: the counts, and a table of the pieces and their hoards.
pub fn catalogue_table(server: u32, catalogue: &Catalogue) -> String {
    let entries = entries(catalogue);
    let mut lines = counts(server, catalogue) + "\n";
    if entries.is_empty() {
        return lines + "  no piece\n";
    }
    lines += "  piece | hoard\n  ------+-------\n";
    for (piece, hoard) in entries {
        lines += &format!("  {piece:5} | {:>5}\n", hoard_words(hoard));
    }
    lines
}
