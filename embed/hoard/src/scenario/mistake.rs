//! What is wrong with a line, and where.

use std::fmt;

/// A word that does not fit, its place, and what was expected there.
#[derive(Clone, Debug, PartialEq, Eq)]
pub struct Mistake {
    /// The line, from 1.
    pub line: usize,
    /// The column of the word's first character, from 1.
    pub column: usize,
    /// The word, none where the line ends.
    pub word: Option<String>,
    /// What was expected in its place.
    pub expected: String,
}

impl fmt::Display for Mistake {
    fn fmt(&self, f: &mut fmt::Formatter<'_>) -> fmt::Result {
        let Mistake { line, column, word, expected } = self;
        write!(f, "{line}:{column}: ")?;
        match word {
            Some(word) => write!(f, "found '{}', expected {expected}", shown(word)),
            None => write!(f, "found nothing, expected {expected}"),
        }
    }
}

/// How much of a word is shown.
const SHOWN: usize = 40;

/// A word as it can stand in a message: on a terminal it does nothing, and it is not long.
fn shown(word: &str) -> String {
    let rest = if word.chars().nth(SHOWN).is_some() { "..." } else { "" };
    let start: String = word.chars().take(SHOWN).collect();
    // The quotes around it are those of the message.
    start.escape_debug().to_string().replace("\\'", "'").replace("\\\"", "\"") + rest
}
