//! Texts that are no scenarios, each with the first mistake in it.

use hoard::scenario::{Mistake, Scenario};

/// A text, the line, the column, the word, empty where the line ends, and what was expected.
pub type Bad = (&'static str, usize, usize, &'static str, &'static str);

/// Mistakes before the calls: in the room and in the limits.
pub const OPENINGS: [Bad; 48] = [
    // No room.
    ("", 1, 1, "", "'room'"),
    ("\n\n", 2, 1, "", "'room'"),
    ("# room 1 servers 1 drives 1 slots\n \t", 2, 1, "", "'room'"),
    ("fail 0", 1, 1, "fail", "'room'"),
    ("\n  limits 1 1 1 1 1 1 1 1", 2, 3, "limits", "'room'"),
    ("Room 1 servers 1 drives 1 slots", 1, 1, "Room", "'room'"),
    ("rooms 1 servers 1 drives 1 slots", 1, 1, "rooms", "'room'"),
    // Each word of the room.
    ("room", 1, 5, "", "1 to 4 servers"),
    ("room #1", 1, 5, "", "1 to 4 servers"),
    ("room servers", 1, 6, "servers", "1 to 4 servers"),
    ("room 1", 1, 7, "", "'servers'"),
    ("room 1 server 1 drives 1 slots", 1, 8, "server", "'servers'"),
    ("room 1 drives 1 servers 1 slots", 1, 8, "drives", "'servers'"),
    ("room 1 servers", 1, 15, "", "1 to 7 drives"),
    ("room 1 servers x", 1, 16, "x", "1 to 7 drives"),
    ("room 1 servers 1", 1, 17, "", "'drives'"),
    ("room 1 servers 1 drive 1 slots", 1, 18, "drive", "'drives'"),
    ("room 1 servers 1 drives", 1, 24, "", "1 to 16 slots"),
    ("room 1 servers 1 drives slots", 1, 25, "slots", "1 to 16 slots"),
    ("room 1 servers 1 drives 1", 1, 26, "", "'slots'"),
    ("room 1 servers 1 drives 1 slot", 1, 27, "slot", "'slots'"),
    ("room 1 servers 1 drives 1 slots 1", 1, 33, "1", "the end of the line"),
    // Sizes that fit no room: each of the three, and the first of several.
    ("room 0 servers 1 drives 1 slots", 1, 6, "0", "1 to 4 servers"),
    ("room 5 servers 1 drives 1 slots", 1, 6, "5", "1 to 4 servers"),
    ("room 1 servers 0 drives 1 slots", 1, 16, "0", "1 to 7 drives"),
    ("room 1 servers 8 drives 1 slots", 1, 16, "8", "1 to 7 drives"),
    ("room 1 servers 1 drives 0 slots", 1, 25, "0", "1 to 16 slots"),
    ("room 4 servers 7 drives 17 slots", 1, 25, "17", "1 to 16 slots"),
    ("room 255 servers 255 drives 255 slots", 1, 6, "255", "1 to 4 servers"),
    ("room 4 servers 255 drives 255 slots", 1, 16, "255", "1 to 7 drives"),
    ("room 9 servers 1 drives 1 slots extra", 1, 6, "9", "1 to 4 servers"),
    ("room 256 servers 1 drives 1 slots", 1, 6, "256", "1 to 4 servers"),
    ("room -1 servers 1 drives 1 slots", 1, 6, "-1", "1 to 4 servers"),
    ("room +1 servers 1 drives 1 slots", 1, 6, "+1", "1 to 4 servers"),
    ("room 1 servers 1,0 drives 1 slots", 1, 16, "1,0", "1 to 7 drives"),
    // The room twice.
    ("room 1 servers 1 drives 1 slots\nroom 1 servers 1 drives 1 slots", 2, 1, "room", BEFORE),
    ("room 1 servers 1 drives 1 slots\nfail 0\n room", 3, 2, "room", AFTER),
    // Limits: 0, 256, seven, nine, no number, twice, after a call.
    (
        "room 1 servers 1 drives 1 slots\nlimits 1 1 1 0 1 1 1 1",
        2,
        14,
        "0",
        "a limit from 1 to 255",
    ),
    ("room 1 servers 1 drives 1 slots\nlimits 0 1 1 1 1 1 1 0", 2, 8, "0", "a limit from 1 to 255"),
    ("room 1 servers 1 drives 1 slots\nlimits 1 1 1 1 1 1 1 256", 2, 22, "256", LIMIT),
    ("room 1 servers 1 drives 1 slots\nlimits 0 1 1 1 1 1 1 999", 2, 8, "0", LIMIT),
    ("room 1 servers 1 drives 1 slots\nlimits 1 1 1 1 1 1 1", 2, 21, "", LIMIT),
    ("room 1 servers 1 drives 1 slots\nlimits", 2, 7, "", LIMIT),
    (
        "room 1 servers 1 drives 1 slots\nlimits 1 1 1 1 1 1 1 1 9",
        2,
        24,
        "9",
        "the end of the line",
    ),
    ("room 1 servers 1 drives 1 slots\nlimits 1 1 +1 1 1 1 1 1", 2, 12, "+1", LIMIT),
    (
        "room 1 servers 1 drives 1 slots\nlimits 1 1 1 1 1 1 1 1\nlimits 1 1 1 1 1 1 1 1",
        3,
        1,
        "limits",
        AFTER,
    ),
    ("room 1 servers 1 drives 1 slots\nfail 0\nlimits 1 1 1 1 1 1 1 1", 3, 1, "limits", AFTER),
    (
        "room 1 servers 1 drives 1 slots\nsettle 0 slot 0\nlimits 1 1 1 1 1 1 1 1",
        3,
        1,
        "limits",
        AFTER,
    ),
];

/// A limit that is no byte.
const LIMIT: &str = "a limit from 1 to 255";
/// What may stand behind the room.
const BEFORE: &str = "one of the words limits, offer, recall, rejoin, bid, write, read, finish, \
    fail, drive, ask, put, settle";
/// What may stand behind the limits or a call.
const AFTER: &str = "one of the words offer, recall, rejoin, bid, write, read, finish, fail, \
    drive, ask, put, settle";

/// Mistakes in the words of a call, in a line that stands alone behind a room and a call.
pub const CALLS: [Bad; 61] = [
    // The first word.
    ("fial 0", 3, 1, "fial", AFTER),
    ("  Fail 0", 3, 3, "Fail", AFTER),
    ("0", 3, 1, "0", AFTER),
    ("\u{1fa99} 0", 3, 1, "\u{1fa99}", AFTER),
    // Wide and narrow blanks of other languages are blanks, and each is one column.
    ("fail\u{a0}\u{3000}x", 3, 7, "x", "a number from 0 to 255 (server)"),
    ("enter piece 5 hoard 9", 3, 1, "enter", AFTER),
    ("next 0 slot 0", 3, 1, "next", AFTER),
    // A server, a slot, a drive and another server, too large and no numbers.
    ("fail", 3, 5, "", "a number from 0 to 255 (server)"),
    ("fail 256", 3, 6, "256", "a number from 0 to 255 (server)"),
    (
        "fail 99999999999999999999999",
        3,
        6,
        "99999999999999999999999",
        "a number from 0 to 255 (server)",
    ),
    ("fail -0", 3, 6, "-0", "a number from 0 to 255 (server)"),
    ("fail +0", 3, 6, "+0", "a number from 0 to 255 (server)"),
    ("fail 0x1", 3, 6, "0x1", "a number from 0 to 255 (server)"),
    ("fail 1.0", 3, 6, "1.0", "a number from 0 to 255 (server)"),
    ("fail \u{661}", 3, 6, "\u{661}", "a number from 0 to 255 (server)"),
    ("fail one", 3, 6, "one", "a number from 0 to 255 (server)"),
    ("ask 256", 3, 5, "256", "a number from 0 to 255 (server)"),
    ("finish 0 slot 256", 3, 15, "256", "a number from 0 to 255 (slot)"),
    ("settle 0 slot -1", 3, 15, "-1", "a number from 0 to 255 (slot)"),
    ("settle 256 slot 1", 3, 8, "256", "a number from 0 to 255 (server)"),
    ("recall 0 slot 0 drive 256", 3, 23, "256", "a number from 0 to 255 (drive)"),
    ("write 0 slot 0 drive d", 3, 22, "d", "a number from 0 to 255 (drive)"),
    ("read 0 slot 0 drive 0 of 256", 3, 26, "256", "a number from 0 to 255 (other)"),
    ("read 0 slot 0 drive 0 of", 3, 25, "", "a number from 0 to 255 (other)"),
    ("drive 256 off", 3, 7, "256", "a number from 0 to 255 (drive)"),
    // Each word between the numbers.
    ("offer 0 slots 0 strike piece 5", 3, 9, "slots", "'slot'"),
    ("recall 0 0 0", 3, 10, "0", "'slot'"),
    ("recall 0 slot 0 drives 0", 3, 17, "drives", "'drive'"),
    ("rejoin 0 drive 0 ballot 1", 3, 10, "drive", "'slot'"),
    ("rejoin 0 slot 0", 3, 16, "", "'ballot'"),
    ("bid 0 slot 0 balot 1", 3, 14, "balot", "'ballot'"),
    ("write\t0 slot 0 # drive 0", 3, 15, "", "'drive'"),
    ("read 0 slot 0 drive 0", 3, 22, "", "'of'"),
    ("read 0 slot 0 drive 0 off 1", 3, 23, "off", "'of'"),
    ("put 0 Slot 0 strike piece 5", 3, 7, "Slot", "'slot'"),
    // A ballot.
    ("rejoin 0 slot 0 ballot", 3, 23, "", "a number from 0 to 4294967295 (ballot)"),
    (
        "rejoin 0 slot 0 ballot 4294967296",
        3,
        24,
        "4294967296",
        "a number from 0 to 4294967295 (ballot)",
    ),
    ("bid 0 slot 0 ballot -1", 3, 21, "-1", "a number from 0 to 4294967295 (ballot)"),
    ("bid 0 slot 0 ballot 1_000", 3, 21, "1_000", "a number from 0 to 4294967295 (ballot)"),
    // The switch of a drive.
    ("drive 0", 3, 8, "", "'off' or 'on'"),
    ("drive 0 of", 3, 9, "of", "'off' or 'on'"),
    ("drive 0 Off", 3, 9, "Off", "'off' or 'on'"),
    // A command.
    ("offer 0 slot 0", 3, 15, "", COMMAND),
    ("offer 0 slot 0 66825", 3, 16, "66825", COMMAND),
    ("put 0 slot 0 close", 3, 14, "close", COMMAND),
    ("offer 0 slot 0 number", 3, 22, "", "a number from 0 to 4294967295"),
    ("put 0 slot 0 number 4294967296", 3, 21, "4294967296", "a number from 0 to 4294967295"),
    ("offer 0 slot 0 enter 5 hoard 9", 3, 22, "5", "'piece'"),
    ("offer 0 slot 0 enter piece 64 hoard 1", 3, 28, "64", PIECE),
    ("offer 0 slot 0 move piece -1 hoard 1", 3, 27, "-1", PIECE),
    ("offer 0 slot 0 enter piece +5 hoard 1", 3, 28, "+5", PIECE),
    ("offer 0 slot 0 enter piece 5 9", 3, 30, "9", "'hoard'"),
    ("offer 0 slot 0 enter piece 5 hoard 0", 3, 36, "0", HOARD),
    ("offer 0 slot 0 move piece 5 hoard 256", 3, 35, "256", HOARD),
    ("put 0 slot 0 move piece 5 hoard +9", 3, 33, "+9", HOARD),
    ("put 0 slot 0 strike piece 64", 3, 27, "64", PIECE),
    ("put 0 slot 0 strike", 3, 20, "", "'piece'"),
    // A word too many.
    ("put 0 slot 0 strike piece 5 hoard 0", 3, 29, "hoard", "the end of the line"),
    ("fail 0 slot 0", 3, 8, "slot", "the end of the line"),
    ("drive 1 off on", 3, 13, "on", "the end of the line"),
    ("ask 0 ; fail 0", 3, 7, ";", "the end of the line"),
];

/// The first word of a command.
const COMMAND: &str = "a command: 'enter', 'move', 'strike' or 'number'";
/// A piece.
const PIECE: &str = "a piece from 0 to 63";
/// A hoard.
const HOARD: &str = "a hoard from 1 to 255";

/// Every text, with the line, the column, the word and what was expected.
pub fn texts() -> Vec<(String, Mistake)> {
    let mistake = |&(_, line, column, word, expected): &Bad| {
        let word = (!word.is_empty()).then(|| word.to_string());
        Mistake { line, column, word, expected: expected.to_string() }
    };
    let openings = OPENINGS.iter().map(|bad| (bad.0.to_string(), mistake(bad)));
    let calls = CALLS.iter().map(|bad| {
        // What follows has a mistake too, but it is not the first.
        let text = format!("room 2 servers 3 drives 4 slots\nfail 1\n{}\nand more\n", bad.0);
        (text, mistake(bad))
    });
    openings.chain(calls).collect()
}

#[test]
fn the_first_mistake_is_named() {
    for (text, mistake) in texts() {
        assert_eq!(Scenario::read(&text), Err(mistake), "{text:?}");
    }
}

#[test]
fn a_mistake_is_said_in_a_line() {
    let said = |text| Scenario::read(text).map_err(|mistake| mistake.to_string());
    let found = "1:8: found 'server', expected 'servers'".to_string();
    assert_eq!(said("room 1 server 1 drives 1 slots"), Err(found));
    let end = "1:7: found nothing, expected 'servers'".to_string();
    assert_eq!(said("room 1 # servers"), Err(end));
}
