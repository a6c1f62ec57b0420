//! Each word of each form: another in its place, none, and one behind the last.

use hoard::scenario::{Mistake, Scenario};

/// What a place of a form takes.
#[derive(Clone, Copy, Debug)]
enum Takes {
    /// This word.
    Word(&'static str),
    /// A number of a byte, of this name.
    Byte(&'static str),
    /// A number of 32 bits, of this name.
    Number(&'static str),
    /// The first word of a command.
    Command,
    /// A piece.
    Piece,
    /// A hoard.
    Hoard,
    /// `off` or `on`.
    Switch,
}

use Takes::{Byte, Command, Hoard, Number, Piece, Switch, Word};

/// The server and the slot of most lines.
const SERVER: Takes = Byte("server");
const SLOT: [Takes; 2] = [Word("slot"), Byte("slot")];

/// Lines of every form, each with what its words behind the first take.
fn lines() -> Vec<(&'static str, Vec<Takes>)> {
    let slot = |more: &[Takes]| [&[SERVER], &SLOT[..], more].concat();
    let drive = [Word("drive"), Byte("drive")];
    let ballot = [Word("ballot"), Number("ballot")];
    let piece = [Command, Word("piece"), Piece];
    let hoard = [&piece[..], &[Word("hoard"), Hoard]].concat();
    vec![
        ("offer 1 slot 2 enter piece 5 hoard 9", slot(&hoard)),
        ("offer 1 slot 2 move piece 63 hoard 255", slot(&hoard)),
        ("offer 1 slot 2 strike piece 0", slot(&piece)),
        ("offer 1 slot 2 number 66825", slot(&[Command, Number("command")])),
        ("recall 1 slot 2 drive 3", slot(&drive)),
        ("rejoin 1 slot 2 ballot 4", slot(&ballot)),
        ("bid 1 slot 2 ballot 4", slot(&ballot)),
        ("write 1 slot 2 drive 3", slot(&drive)),
        ("read 1 slot 2 drive 3 of 0", slot(&[&drive[..], &[Word("of"), Byte("other")]].concat())),
        ("finish 1 slot 2", slot(&[])),
        ("fail 1", vec![SERVER]),
        ("drive 1 off", vec![Byte("drive"), Switch]),
        ("drive 1 on", vec![Byte("drive"), Switch]),
        ("ask 1", vec![SERVER]),
        ("put 1 slot 2 enter piece 5 hoard 9", slot(&hoard)),
        ("put 1 slot 2 move piece 5 hoard 9", slot(&hoard)),
        ("put 1 slot 2 strike piece 5", slot(&piece)),
        ("put 1 slot 2 number 0", slot(&[Command, Number("command")])),
        ("settle 1 slot 2", slot(&[])),
        ("limits 1 2 3 4 5 6 7 8", vec![Byte("limit"); 8]),
    ]
}

/// The line of the room, by itself.
fn room() -> (&'static str, Vec<Takes>) {
    let takes = ["servers", "drives", "slots"].map(|name| [Byte(name), Word(name)]);
    ("room 4 servers 7 drives 16 slots", takes.concat())
}

/// Words that are no number.
const NO_NUMBERS: [&str; 12] = [
    "-1",
    "+1",
    "-0",
    "+0",
    "x",
    "1x",
    "x1",
    "0x1",
    "1.0",
    "1,0",
    "99999999999999999999",
    "\u{661}",
];

impl Takes {
    /// What is expected there.
    fn expected(self) -> String {
        match self {
            Word(word) => format!("'{word}'"),
            Byte("servers") => "1 to 4 servers".to_string(),
            Byte("drives") => "1 to 7 drives".to_string(),
            Byte("slots") => "1 to 16 slots".to_string(),
            Byte("limit") => "a limit from 1 to 255".to_string(),
            Byte(name) => format!("a number from 0 to 255 ({name})"),
            Number("command") => "a number from 0 to 4294967295".to_string(),
            Number(name) => format!("a number from 0 to 4294967295 ({name})"),
            Command => "a command: 'enter', 'move', 'strike' or 'number'".to_string(),
            Piece => "a piece from 0 to 63".to_string(),
            Hoard => "a hoard from 1 to 255".to_string(),
            Switch => "'off' or 'on'".to_string(),
        }
    }

    /// Words that don't fit there.
    fn others(self) -> Vec<&'static str> {
        let more: &[&str] = match self {
            Word(word) => {
                let others = ["x", "0", "sl", "slotx", "SLOT", "of", "off", "strike", "'slot'"];
                return others.into_iter().filter(|&other| other != word).collect();
            }
            Command => return vec!["x", "0", "66825", "Enter", "enters", "close", "piece", "slot"],
            Switch => return vec!["x", "0", "1", "of", "o", "offf", "ON", "slot"],
            Byte(_) => &["256", "1000", "4294967296", "4294967297"],
            Number(_) => &["4294967296", "4294967297", "1e3"],
            Piece => &["64", "255", "256", "4294967296"],
            Hoard => &["0", "256", "257", "4294967297"],
        };
        NO_NUMBERS.iter().chain(more).copied().collect()
    }
}

/// Asserts that the last line of a text has this mistake.
fn refuse(before: &str, line: &str, column: usize, word: Option<&str>, expected: &str) {
    let text = format!("{before}{line}");
    let word = word.map(str::to_string);
    let mistake = Mistake { line: text.lines().count(), column, word, expected: expected.into() };
    assert_eq!(Scenario::read(&text), Err(mistake), "{line}");
}

/// Each word of a line, spoilt in each way.
fn spoil(before: &str, line: &str, takes: &[Takes]) {
    assert!(Scenario::read(&format!("{before}{line}")).is_ok(), "{line}");
    let words: Vec<&str> = line.split(' ').collect();
    assert_eq!(words.len(), takes.len() + 1, "{line}");
    for (place, takes) in (1..).zip(takes) {
        let (begin, rest) = (words[..place].join(" "), words[place + 1..].join(" "));
        refuse(before, &begin, begin.len() + 1, None, &takes.expected());
        replace(before, &begin, *takes, &rest);
    }
    ["x", "0", words[0]].into_iter().for_each(|more| {
        let longer = format!("{line} {more}");
        refuse(before, &longer, line.len() + 2, Some(more), "the end of the line");
    });
}

/// Every other word between the begin of a line and its rest.
fn replace(before: &str, begin: &str, takes: Takes, rest: &str) {
    for other in takes.others() {
        let spoilt = format!("{begin} {other} {rest}");
        refuse(before, &spoilt, begin.len() + 2, Some(other), &takes.expected());
    }
}

#[test]
fn each_word_of_a_line_is_looked_at() {
    let (line, takes) = room();
    spoil("", line, &takes);
    for (line, takes) in lines() {
        spoil("room 2 servers 3 drives 4 slots\n", line, &takes);
    }
}
