//! The form of each line: the words that stand as they are, and the numbers between them.
//! A line is read and written by its form, and the help text shows it.

use register::{room_length, Limits, Room, CABINETS};

/// What a line asks for.
#[derive(Clone, Copy, Debug, PartialEq, Eq)]
pub enum Verb {
    /// Opens the room of these sizes.
    Room,
    /// Sets the limits of the eight cabinets.
    Limits,
    /// The step Offer.
    Offer,
    /// The step Recall.
    Recall,
    /// The step Rejoin.
    Rejoin,
    /// The step Bid.
    Bid,
    /// The step Write.
    Write,
    /// The step Read.
    Read,
    /// The step Finish.
    Finish,
    /// The step Fail.
    Fail,
    /// The steps DriveOff and DriveOn.
    Drive,
    /// The call Ask.
    Ask,
    /// The call Put.
    Put,
    /// The call next, and the step that it gives, until one commits or there is none.
    Settle,
}

/// The form of a line: its first word names the verb, and a word in capitals stands for a
/// `Field`.
pub struct Form {
    /// What the line asks for.
    pub verb: Verb,
    /// The words of the line.
    pub words: &'static str,
    /// What it does, for the help text.
    pub about: &'static str,
}

impl Form {
    /// The first word.
    pub fn name(&self) -> &'static str {
        self.words.split(' ').next().unwrap_or_default()
    }
}

/// What stands in the place of a word in capitals.
#[derive(Clone, Copy, Debug, PartialEq, Eq)]
pub enum Field {
    /// A number of a byte: a size, a server, a slot, a drive or a limit.
    Byte,
    /// A number of 32 bits: a ballot.
    Number,
    /// A command, in words.
    Command,
    /// `off` or `on`.
    Switch,
}

/// Whether a number can stand in the place of a word in capitals. Which sizes and limits a room may
/// have is the library's to say.
pub fn fits(word: &str, value: u32) -> bool {
    match word {
        "SERVERS" => room_length(value, 1, 1).is_some(),
        "DRIVES" => room_length(1, value, 1).is_some(),
        "SLOTS" => room_length(1, 1, value).is_some(),
        "LIMIT" => Room::open_with(1, 1, 1, Limits::of([value; CABINETS])).is_ok(),
        _ => true,
    }
}

/// What is expected in the place of a word in capitals that stands for a number. These are the
/// ranges that the library judges by, for messages alone.
pub fn expected(word: &str) -> String {
    match word {
        "SERVERS" => "1 to 4 servers".to_string(),
        "DRIVES" => "1 to 7 drives".to_string(),
        "SLOTS" => "1 to 16 slots".to_string(),
        "LIMIT" => "a limit from 1 to 255".to_string(),
        "BALLOT" => format!("a number from 0 to {} (ballot)", u32::MAX),
        "NUMBER" => format!("a number from 0 to {}", u32::MAX),
        _ => format!("a number from 0 to {} ({})", u8::MAX, word.to_lowercase()),
    }
}

/// The first words that a command can have.
pub const COMMAND_WORDS: [&str; 4] = ["enter", "move", "strike", "number"];

/// What a word of a form stands for, none where it stands for itself.
pub fn field(word: &str) -> Option<Field> {
    match word {
        "BALLOT" => Some(Field::Number),
        "COMMAND" => Some(Field::Command),
        "SWITCH" => Some(Field::Switch),
        _ => word.starts_with(|first: char| first.is_ascii_uppercase()).then_some(Field::Byte),
    }
}

/// The form of a verb.
pub fn form(verb: Verb) -> &'static Form {
    &FORMS[verb as usize]
}

// The forms stand in the order of the verbs.
const _: () = {
    let mut place = 0;
    while place < FORMS.len() {
        assert!(FORMS[place].verb as usize == place);
        place += 1;
    }
};

/// Every form, in the order of the verbs.
pub const FORMS: [Form; 14] = [
    Form {
        verb: Verb::Room,
        words: "room SERVERS servers DRIVES drives SLOTS slots",
        about:
            "Opens a room of 1 to 4 servers, 1 to 7 drives and 1 to 16 slots. This is the first \
                line of a scenario. Servers, drives and slots count from 0.",
    },
    Form {
        verb: Verb::Limits,
        words: "limits LIMIT LIMIT LIMIT LIMIT LIMIT LIMIT LIMIT LIMIT",
        about: "Opens the room with the museum's own limits: the largest hoard of each of the \
                cabinets 0 to 7, from 1 to 255. Cabinet c has the pieces from 8c to 8c + 7. This \
                line may follow the first one. Without it the limits are \
                255 255 200 200 120 120 60 60.",
    },
    Form {
        verb: Verb::Offer,
        words: "offer SERVER slot SLOT COMMAND",
        about: "The server offers a command for the slot, in any phase.",
    },
    Form {
        verb: Verb::Recall,
        words: "recall SERVER slot SLOT drive DRIVE",
        about: "In phase 0 the server reads its own block on the drive: it recalls what it wrote \
                there before it failed.",
    },
    Form {
        verb: Verb::Rejoin,
        words: "rejoin SERVER slot SLOT ballot BALLOT",
        about: "In phase 0 the server goes on to phase 1 with a ballot of its own, above those \
                that it recalled. It must have recalled a majority of the drives. Ballot b is \
                that of server (b - 1) mod N, where N is the number of servers.",
    },
    Form {
        verb: Verb::Bid,
        words: "bid SERVER slot SLOT ballot BALLOT",
        about: "In phase 1 or 2 the server begins phase 1 again with a larger ballot of its own.",
    },
    Form {
        verb: Verb::Write,
        words: "write SERVER slot SLOT drive DRIVE",
        about: "In phase 1, 2 or 3 the server writes its block to the drive. In phase 3 the block \
                tells others what was settled.",
    },
    Form {
        verb: Verb::Read,
        words: "read SERVER slot SLOT drive DRIVE of OTHER",
        about: "In phase 1 or 2 the server reads the other server's block on a drive that it has \
                written in this phase. It is outbid where it finds a ballot that is not below its \
                own, and has learned what was settled where the block tells it.",
    },
    Form {
        verb: Verb::Finish,
        words: "finish SERVER slot SLOT",
        about: "The server ends phase 1, and chooses a command, or phase 2, and commits it. It \
                must have written a majority of the drives in this phase and read every other \
                server's block there.",
    },
    Form {
        verb: Verb::Fail,
        words: "fail SERVER",
        about:
            "The server fails: it forgets everything, in every slot. The blocks on the drives stay.",
    },
    Form {
        verb: Verb::Drive,
        words: "drive DRIVE SWITCH",
        about: "SWITCH is off or on. A drive that is off can't be recalled, written or read.",
    },
    Form {
        verb: Verb::Ask,
        words: "ask SERVER",
        about: "Asks for the lowest slot that is free for the server: it offers nothing there and \
                is not in phase 3. Nothing changes.",
    },
    Form {
        verb: Verb::Put,
        words: "put SERVER slot SLOT COMMAND",
        about: "The server offers a command for the slot, as offer does, if the slot is free for \
                it.",
    },
    Form {
        verb: Verb::Settle,
        words: "settle SERVER slot SLOT",
        about:
            "The server takes its next step in the slot, again and again, until one is answered \
                committed or there is none. Each of these steps is shown. It is refused where the \
                drives that are on are no majority.",
    },
];
