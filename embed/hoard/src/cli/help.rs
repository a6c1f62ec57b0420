//! The help texts.

use crate::scenario::{Form, COMMAND_WORDS, FORMS};

/// The words of the command line, each with its help text.
pub const COMMANDS: [(&str, &str); 4] = [
    (
        "run",
        "\
usage: hoard run FILE

Plays the scenario of FILE: prints each call with its number and its answer, and then what each
server knows of the pieces. The page of 'hoard show' has the same numbers. Nothing is played where
a line has a mistake.
",
    ),
    (
        "show",
        "\
usage: hoard show FILE [-o PAGE] [--svg]

Plays the scenario of FILE and draws it: a page for a browser, in one file, which needs no network.

  -o PAGE   writes the page to the file PAGE and not to standard output
  --svg     writes the picture of all slots alone, as SVG
",
    ),
    (
        "bytes",
        "\
usage: hoard bytes FILE [-o BYTES] [--hex]

Writes the scenario of FILE as the bytes that the program rehearse reads: the sizes, and a record
for each step. A put that is accepted stands there as an offer, a settle as the steps that it
takes; an ask and a put that is refused change nothing and are left out. rehearse opens every room
with the usual limits, so that a scenario with others has no bytes.

  -o BYTES  writes to the file BYTES and not to standard output
  --hex     writes pairs of hexadecimal digits, as examples/run reads them
",
    ),
    (
        "words",
        "\
usage: hoard words BYTES [-o FILE] [--hex]

Writes the bytes that rehearse reads as a scenario: the room, and a line for each step. 'hoard
bytes' makes the same bytes of it.

  -o FILE   writes to the file FILE and not to standard output
  --hex     reads pairs of hexadecimal digits, as they stand in examples/sample.hex
",
    ),
];

/// What a command is in a scenario.
const COMMAND: &str = "\
COMMAND is one of
  enter piece PIECE hoard HOARD
  move piece PIECE hoard HOARD
  strike piece PIECE
  number NUMBER      any number, which need not be a command
";

/// The name of a word and its help text, none where it is no word.
pub fn of(word: &str) -> Option<(&'static str, String)> {
    let own = COMMANDS.iter().find(|(name, _)| *name == word);
    let own = own.map(|(name, text)| (*name, (*text).to_string()));
    own.or_else(|| {
        FORMS.iter().find(|form| form.name() == word).map(|form| (form.name(), line(form)))
    })
    .or_else(|| COMMAND_WORDS.into_iter().find(|name| *name == word).map(|name| (name, command())))
}

/// The help text of the words of a command.
fn command() -> String {
    let verbs = FORMS.iter().filter(|form| form.words.ends_with("COMMAND"));
    let lines: String = verbs.map(|form| format!("line of a scenario: {}\n", form.words)).collect();
    format!("{lines}\n{COMMAND}")
}

/// The help text of a word of a scenario.
fn line(form: &Form) -> String {
    let mut text = format!("line of a scenario: {}\n\n{}\n", form.words, wrapped(form.about));
    if form.words.ends_with("COMMAND") {
        text = text + "\n" + COMMAND;
    }
    text
}

/// The help text of the program.
pub fn program() -> String {
    let lines: String = FORMS.iter().map(|form| format!("  {}\n", form.words)).collect();
    format!(
        "\
Plays a run of the register that is written in words, and draws it. Each call is made in the proved
library.

usage: hoard run FILE                      plays a scenario and prints it
       hoard show FILE [-o PAGE] [--svg]   draws it as a page for a browser
       hoard bytes FILE [-o BYTES] [--hex] writes it as the bytes that rehearse reads
       hoard words BYTES [-o FILE] [--hex] writes such bytes as a scenario
       hoard WORD --help                   says more, also of the first word of a line or a command

A file that is named - is standard input or output. A scenario has a line for each call; # starts
a comment. The room stands first:

{lines}
{COMMAND}
The status is 0 where all was done, 1 where a file has a mistake, can't be read or written, or
can't be turned into the other form, and 2 where the command line is wrong. A call that the library
refuses is an answer, and no mistake.
"
    )
}

/// The version of the program.
pub fn version() -> String {
    format!("hoard {}\n", env!("CARGO_PKG_VERSION"))
}

/// A text in lines of at most 98 characters.
fn wrapped(text: &str) -> String {
    let mut lines = String::new();
    let mut width = 0;
    for word in text.split(' ') {
        let fits = width + 1 + word.len() <= 98;
        if width > 0 {
            lines.push(if fits { ' ' } else { '\n' });
        }
        width = if width > 0 && fits { width + 1 } else { 0 } + word.len();
        lines += word;
    }
    lines
}
