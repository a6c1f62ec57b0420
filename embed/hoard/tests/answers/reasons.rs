//! Why a call is refused: for each refusal a scenario, and the answer of its last line. A reason
//! is about this call in this room, and the number of the refusal stands behind it.

use crate::common::program::hoard;

/// The lines before the last, the last line, and what is printed behind it.
type Refusal = (&'static str, &'static str, &'static str);

/// Places that the room does not have.
const BEYOND: [Refusal; 14] = [
    (ROOM, "offer 2 slot 0 enter piece 5 hoard 9", "refused: the room has no server 2 (4)"),
    (ROOM, "offer 0 slot 4 enter piece 5 hoard 9", "refused: the room has no slot 4 (4)"),
    (ROOM, "recall 0 slot 0 drive 3", "refused: the room has no drive 3 (4)"),
    (ROOM, "rejoin 255 slot 0 ballot 1", "refused: the room has no server 255 (4)"),
    (ROOM, "bid 0 slot 255 ballot 1", "refused: the room has no slot 255 (4)"),
    (ROOM, "write 1 slot 3 drive 255", "refused: the room has no drive 255 (4)"),
    (ROOM, "read 0 slot 0 drive 0 of 2", "refused: the room has no server 2 (4)"),
    (ROOM, "read 0 slot 0 drive 0 of 0", "refused: a server does not read its own block (4)"),
    (ROOM, "read 2 slot 9 drive 9 of 2", "refused: the room has no server 2 (4)"),
    (ROOM, "finish 0 slot 16", "refused: the room has no slot 16 (4)"),
    (ROOM, "fail 2", "refused: the room has no server 2 (4)"),
    (ROOM, "drive 3 on", "refused: the room has no drive 3 (4)"),
    (ROOM, "ask 3", "refused: the room has no server 3 (4)"),
    (ROOM, "put 1 slot 5 strike piece 0", "refused: the room has no slot 5 (4)"),
];

/// What the writer of a call brought, and what the run has come to.
const OTHERS: [Refusal; 18] = [
    (
        ROOM,
        "offer 0 slot 0 enter piece 63 hoard 61",
        "refused: enter piece 63 hoard 61 is not a command of this room (5)",
    ),
    (ROOM, "put 0 slot 0 number 0", "refused: number 0 is not a command of this room (5)"),
    (
        "room 1 servers 1 drives 1 slots\nlimits 1 2 3 4 5 6 7 8",
        "put 0 slot 0 move piece 8 hoard 3",
        "refused: move piece 8 hoard 3 is not a command of this room (5)",
    ),
    (ROOM, "rejoin 0 slot 0 ballot 2", "refused: 2 is not a ballot of server 0 (6)"),
    (ROOM, "bid 1 slot 0 ballot 0", "refused: 0 is not a ballot of server 1 (6)"),
    (ROOM, "bid 0 slot 0 ballot 1000001", "refused: 1000001 is not a ballot of server 0 (6)"),
    (ROOM, "write 1 slot 2 drive 0", "refused: server 1 in slot 2 is in phase 0 (7)"),
    (PHASE_1, "recall 0 slot 0 drive 0", "refused: server 0 in slot 0 is in phase 1 (7)"),
    (SETTLED, "finish 0 slot 0", "refused: server 0 in slot 0 is in phase 3 (7)"),
    ("room 2 servers 3 drives 4 slots\ndrive 1 off", OFF, "refused: drive 1 is off (8)"),
    (
        PHASE_1,
        "read 0 slot 0 drive 1 of 1",
        "refused: server 0 in slot 0 has not written drive 1 in this phase (9)",
    ),
    (PHASE_1, "bid 0 slot 0 ballot 1", "refused: the ballot is not above 1 (11)"),
    (FAILED, "rejoin 0 slot 0 ballot 3", "refused: the ballot is not above 5 (11)"),
    (
        COMPLETED,
        "finish 0 slot 0",
        "refused: server 0 in slot 0 offers no command and has seen none (12)",
    ),
    (LAST, "read 0 slot 0 drive 0 of 1", "refused: outbid, and server 0 has no ballot left (13)"),
    (SETTLED, "put 0 slot 0 strike piece 5", "refused: slot 0 is not free for server 0 (16)"),
    (OFFERED, "put 0 slot 0 strike piece 5", "refused: slot 0 is not free for server 0 (16)"),
    (SETTLED, "ask 0", "refused: no slot is free for server 0 (17)"),
];

/// Which drives count, where they are no majority.
const MAJORITIES: [Refusal; 12] = [
    (ROOM, "rejoin 0 slot 0 ballot 1", "refused: no drive was recalled (10)"),
    (
        "room 2 servers 3 drives 4 slots\nrecall 0 slot 0 drive 1",
        "rejoin 0 slot 0 ballot 1",
        "refused: drive 1 was recalled, no majority of 3 (10)",
    ),
    (
        "room 2 servers 5 drives 1 slots\nrecall 0 slot 0 drive 4\nrecall 0 slot 0 drive 1",
        "rejoin 0 slot 0 ballot 1",
        "refused: drives 1, 4 were recalled, no majority of 5 (10)",
    ),
    (
        "room 2 servers 7 drives 1 slots\nrecall 1 slot 0 drive 4\nrecall 1 slot 0 drive 1\n\
         recall 1 slot 0 drive 6",
        "rejoin 1 slot 0 ballot 2",
        "refused: drives 1, 4, 6 were recalled, no majority of 7 (10)",
    ),
    (
        "room 1 servers 2 drives 1 slots\nrecall 0 slot 0 drive 1",
        "rejoin 0 slot 0 ballot 1",
        "refused: drive 1 was recalled, no majority of 2 without drive 0 (10)",
    ),
    (
        "room 1 servers 4 drives 1 slots\nrecall 0 slot 0 drive 0\nrecall 0 slot 0 drive 1\n\
         rejoin 0 slot 0 ballot 1\nwrite 0 slot 0 drive 3\nwrite 0 slot 0 drive 1",
        "finish 0 slot 0",
        "refused: drives 1, 3 were written and read, no majority of 4 without drive 0 (10)",
    ),
    (PHASE_1, "finish 0 slot 0", "refused: no drive was written and read (10)"),
    (
        "room 2 servers 1 drives 1 slots\nrecall 1 slot 0 drive 0\nrejoin 1 slot 0 ballot 2\n\
         write 1 slot 0 drive 0",
        "finish 1 slot 0",
        "refused: no drive was written and read (10)",
    ),
    (
        "room 2 servers 3 drives 1 slots\nrecall 0 slot 0 drive 0\nrecall 0 slot 0 drive 1\n\
         rejoin 0 slot 0 ballot 1\nwrite 0 slot 0 drive 0\nwrite 0 slot 0 drive 2",
        "finish 0 slot 0",
        "refused: no drive was written and read (10)",
    ),
    (
        "room 2 servers 3 drives 1 slots\nrecall 0 slot 0 drive 0\nrecall 0 slot 0 drive 1\n\
         rejoin 0 slot 0 ballot 1\nwrite 0 slot 0 drive 0\nwrite 0 slot 0 drive 2\n\
         read 0 slot 0 drive 2 of 1",
        "finish 0 slot 0",
        "refused: drive 2 was written and read, no majority of 3 (10)",
    ),
    (
        "room 1 servers 5 drives 1 slots\nrecall 0 slot 0 drive 0\nrecall 0 slot 0 drive 1\n\
         recall 0 slot 0 drive 2\nrejoin 0 slot 0 ballot 1\nwrite 0 slot 0 drive 3\n\
         write 0 slot 0 drive 0",
        "finish 0 slot 0",
        "refused: drives 0, 3 were written and read, no majority of 5 (10)",
    ),
    (
        "room 3 servers 1 drives 1 slots\nrecall 0 slot 0 drive 0\nrejoin 0 slot 0 ballot 1\n\
         write 0 slot 0 drive 0\nread 0 slot 0 drive 0 of 1",
        "finish 0 slot 0",
        "refused: no drive was written and read (10)",
    ),
];

/// A new room.
const ROOM: &str = "room 2 servers 3 drives 4 slots";
/// A step on drive 1.
const OFF: &str = "recall 0 slot 0 drive 1";
/// Server 0 is in phase 1 with ballot 1.
const PHASE_1: &str = "room 2 servers 3 drives 4 slots\nrecall 0 slot 0 drive 0\n\
    recall 0 slot 0 drive 1\nrejoin 0 slot 0 ballot 1\nwrite 0 slot 0 drive 0";
/// Server 0 has completed phase 1 and knows no command.
const COMPLETED: &str = "room 1 servers 1 drives 1 slots\nrecall 0 slot 0 drive 0\n\
    rejoin 0 slot 0 ballot 1\nwrite 0 slot 0 drive 0";
/// Server 0 has written ballot 5, failed, and recalled it.
const FAILED: &str = "room 2 servers 1 drives 1 slots\nrecall 0 slot 0 drive 0\n\
    rejoin 0 slot 0 ballot 5\nwrite 0 slot 0 drive 0\nfail 0\nrecall 0 slot 0 drive 0";
/// Server 1 has written the largest ballot.
const LAST: &str = "room 2 servers 1 drives 1 slots\nrecall 1 slot 0 drive 0\n\
    rejoin 1 slot 0 ballot 1000000\nwrite 1 slot 0 drive 0\nrecall 0 slot 0 drive 0\n\
    rejoin 0 slot 0 ballot 999999\nwrite 0 slot 0 drive 0";
/// Server 0 offers a command.
const OFFERED: &str = "room 2 servers 3 drives 4 slots\nput 0 slot 0 strike piece 5";
/// Server 0 has settled the only slot.
const SETTLED: &str = "room 1 servers 1 drives 1 slots\noffer 0 slot 0 strike piece 5\n\
    recall 0 slot 0 drive 0\nrejoin 0 slot 0 ballot 1\nwrite 0 slot 0 drive 0\nfinish 0 slot 0\n\
    write 0 slot 0 drive 0\nfinish 0 slot 0";

/// The lines that the program prints of a scenario's calls.
fn printed(before: &str, last: &str) -> Vec<String> {
    let output = hoard(&["run", "-"], format!("{before}\n{last}\n").as_bytes());
    assert_eq!((output.status, output.err.as_str()), (Some(0), ""), "{before}\n{last}");
    let calls = output.text().lines().take_while(|line| !line.is_empty());
    calls.map(str::to_string).collect()
}

#[test]
fn a_refusal_says_why() {
    for (before, last, answer) in BEYOND.iter().chain(&OTHERS).chain(&MAJORITIES) {
        let lines = printed(before, last);
        let opening = if before.contains("\nlimits ") { 2 } else { 1 };
        let number = lines.len() - opening;
        assert_eq!(lines.last(), Some(&format!("{number:4} {last:46} {answer}")), "{before}");
        // What comes before is accepted.
        let refused = lines.iter().filter(|line| line.contains("refused")).count();
        assert_eq!(refused, 1, "{before}");
    }
}

#[test]
fn a_settle_without_a_majority_says_why() {
    for (drives, off, reason) in [
        (2, &["drive 0 off"][..], "drive 1 is on, no majority of 2 without drive 0"),
        (2, &["drive 1 off", "drive 0 off"], "no drive is on"),
        (3, &["drive 1 off", "drive 2 off"], "drive 0 is on, no majority of 3"),
        (
            4,
            &["drive 0 off", "drive 2 off"],
            "drives 1, 3 are on, no majority of 4 without drive 0",
        ),
        (5, &["drive 0 off", "drive 1 off", "drive 3 off"], "drives 2, 4 are on, no majority of 5"),
    ] {
        let before = format!("room 2 servers {drives} drives 1 slots\n{}", off.join("\n"));
        let lines = printed(&before, "settle 1 slot 0");
        let last: Vec<&str> = lines.iter().rev().take(2).map(String::as_str).collect();
        assert_eq!(last, [&format!("     refused: {reason} (19)"), "     settle 1 slot 0"]);
    }
}

#[test]
fn a_settle_beyond_the_room_says_why() {
    for (last, reason) in [
        ("settle 2 slot 4", "     refused: the room has no server 2 (4)"),
        ("settle 1 slot 4", "     refused: the room has no slot 4 (4)"),
    ] {
        assert_eq!(printed(ROOM, last).last().map(String::as_str), Some(reason));
    }
}

/// Another drive's marks would be enough to finish, had the server a command; but its next step is
/// to read a block of the last ballot, and no ballot is left.
#[test]
fn a_settle_without_a_ballot_says_so() {
    let before = "room 2 servers 3 drives 1 slots\ndrive 0 off\nrecall 0 slot 0 drive 1\n\
        recall 0 slot 0 drive 2\nrejoin 0 slot 0 ballot 999999\nwrite 0 slot 0 drive 1\n\
        write 0 slot 0 drive 2\nread 0 slot 0 drive 1 of 1\nread 0 slot 0 drive 2 of 1\n\
        drive 0 on\nrecall 1 slot 0 drive 0\nrecall 1 slot 0 drive 1\n\
        rejoin 1 slot 0 ballot 1000000\nwrite 1 slot 0 drive 0";
    let reason = "     no next step after 1 step: no ballot is left";
    assert_eq!(printed(before, "settle 0 slot 0").last().map(String::as_str), Some(reason));
}
