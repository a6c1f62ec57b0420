//! Every form is read and written, with values at the edges.

use hoard::scenario::{Call, Scenario, Sizes, Spoken, FORMS};
use register::{Limits, Step};

/// The line before each line here.
const ROOM: &str = "room 1 servers 1 drives 1 slots\n";

/// A step.
const fn step(step: Step) -> Spoken {
    Spoken::Call(Call::Step(step))
}

/// The values at the edges.
const TOP: u32 = u32::MAX;

/// A line as it is written, and what it asks for.
fn lines() -> Vec<(&'static str, Spoken)> {
    let mut lines = offers();
    lines.extend(with_blocks());
    lines.extend(without_blocks());
    lines.extend(calls());
    lines
}

/// Offers of every kind of command.
fn offers() -> Vec<(&'static str, Spoken)> {
    let offer = |server, slot, command| step(Step::Offer { server, slot, command });
    vec![
        ("offer 0 slot 0 enter piece 0 hoard 1", offer(0, 0, 65_537)),
        ("offer 255 slot 255 enter piece 63 hoard 255", offer(255, 255, 81_919)),
        ("offer 1 slot 2 enter piece 5 hoard 9", offer(1, 2, 66_825)),
        ("offer 0 slot 255 move piece 0 hoard 255", offer(0, 255, 131_327)),
        ("offer 255 slot 0 move piece 63 hoard 1", offer(255, 0, 147_201)),
        ("offer 3 slot 15 strike piece 0", offer(3, 15, 196_608)),
        ("offer 3 slot 15 strike piece 63", offer(3, 15, 212_736)),
        ("offer 0 slot 0 number 0", offer(0, 0, 0)),
        ("offer 0 slot 0 number 255", offer(0, 0, 255)),
        // Hoard 0, piece 64, a strike with a hoard, and close, which is no command yet.
        ("offer 0 slot 0 number 65536", offer(0, 0, 65_536)),
        ("offer 0 slot 0 number 81921", offer(0, 0, 81_921)),
        ("offer 0 slot 0 number 196609", offer(0, 0, 196_609)),
        ("offer 0 slot 0 number 262144", offer(0, 0, 262_144)),
        ("offer 0 slot 0 number 4294967295", offer(0, 0, TOP)),
    ]
}

/// Steps that are about a block.
fn with_blocks() -> Vec<(&'static str, Spoken)> {
    vec![
        ("recall 0 slot 0 drive 0", step(Step::Recall { server: 0, slot: 0, drive: 0 })),
        ("recall 255 slot 1 drive 2", step(Step::Recall { server: 255, slot: 1, drive: 2 })),
        ("recall 1 slot 255 drive 2", step(Step::Recall { server: 1, slot: 255, drive: 2 })),
        ("recall 1 slot 2 drive 255", step(Step::Recall { server: 1, slot: 2, drive: 255 })),
        ("write 0 slot 0 drive 0", step(Step::Write { server: 0, slot: 0, drive: 0 })),
        ("write 255 slot 1 drive 2", step(Step::Write { server: 255, slot: 1, drive: 2 })),
        ("write 1 slot 255 drive 2", step(Step::Write { server: 1, slot: 255, drive: 2 })),
        ("write 1 slot 2 drive 255", step(Step::Write { server: 1, slot: 2, drive: 255 })),
        ("read 0 slot 0 drive 0 of 0", step(Step::Read { server: 0, slot: 0, drive: 0, other: 0 })),
        (
            "read 255 slot 1 drive 2 of 3",
            step(Step::Read { server: 255, slot: 1, drive: 2, other: 3 }),
        ),
        (
            "read 1 slot 255 drive 2 of 3",
            step(Step::Read { server: 1, slot: 255, drive: 2, other: 3 }),
        ),
        (
            "read 1 slot 2 drive 255 of 3",
            step(Step::Read { server: 1, slot: 2, drive: 255, other: 3 }),
        ),
        (
            "read 1 slot 2 drive 3 of 255",
            step(Step::Read { server: 1, slot: 2, drive: 3, other: 255 }),
        ),
    ]
}

/// Steps that are about none, but for the offers.
fn without_blocks() -> Vec<(&'static str, Spoken)> {
    vec![
        ("rejoin 0 slot 0 ballot 0", step(Step::Rejoin { server: 0, slot: 0, ballot: 0 })),
        ("rejoin 255 slot 1 ballot 1", step(Step::Rejoin { server: 255, slot: 1, ballot: 1 })),
        ("rejoin 1 slot 255 ballot 255", step(Step::Rejoin { server: 1, slot: 255, ballot: 255 })),
        (
            "rejoin 1 slot 2 ballot 4294967295",
            step(Step::Rejoin { server: 1, slot: 2, ballot: TOP }),
        ),
        ("bid 0 slot 0 ballot 0", step(Step::Bid { server: 0, slot: 0, ballot: 0 })),
        (
            "bid 255 slot 1 ballot 1000001",
            step(Step::Bid { server: 255, slot: 1, ballot: 1_000_001 }),
        ),
        ("bid 1 slot 255 ballot 4294967295", step(Step::Bid { server: 1, slot: 255, ballot: TOP })),
        ("finish 0 slot 0", step(Step::Finish { server: 0, slot: 0 })),
        ("finish 255 slot 1", step(Step::Finish { server: 255, slot: 1 })),
        ("finish 1 slot 255", step(Step::Finish { server: 1, slot: 255 })),
        ("fail 0", step(Step::Fail { server: 0 })),
        ("fail 255", step(Step::Fail { server: 255 })),
        ("drive 0 off", step(Step::DriveOff { drive: 0 })),
        ("drive 255 off", step(Step::DriveOff { drive: 255 })),
        ("drive 0 on", step(Step::DriveOn { drive: 0 })),
        ("drive 255 on", step(Step::DriveOn { drive: 255 })),
    ]
}

/// The calls that have no step record.
fn calls() -> Vec<(&'static str, Spoken)> {
    let put = |server, slot, command| Spoken::Call(Call::Put { server, slot, command });
    vec![
        ("ask 0", Spoken::Call(Call::Ask { server: 0 })),
        ("ask 255", Spoken::Call(Call::Ask { server: 255 })),
        ("put 0 slot 255 enter piece 63 hoard 60", put(0, 255, 81_724)),
        ("put 255 slot 0 move piece 1 hoard 2", put(255, 0, 131_330)),
        ("put 1 slot 2 strike piece 3", put(1, 2, 197_376)),
        ("put 0 slot 0 number 0", put(0, 0, 0)),
        ("put 1 slot 2 number 4294967295", put(1, 2, TOP)),
        ("settle 0 slot 0", Spoken::Settle { server: 0, slot: 0 }),
        ("settle 255 slot 1", Spoken::Settle { server: 255, slot: 1 }),
        ("settle 1 slot 255", Spoken::Settle { server: 1, slot: 255 }),
    ]
}

/// What the only line behind the room asks for.
fn read(line: &str) -> Spoken {
    let scenario = Scenario::read(&format!("{ROOM}{line}\n")).expect(line);
    let [(2, spoken)] = scenario.lines[..] else { panic!("{line}: {:?}", scenario.lines) };
    spoken
}

#[test]
fn every_form_is_read_and_written() {
    for (line, spoken) in lines() {
        assert_eq!(read(line), spoken, "{line}");
        assert_eq!(spoken.to_string(), line);
        if let Spoken::Call(call) = spoken {
            assert_eq!(call.to_string(), line);
        }
    }
}

#[test]
fn the_lines_here_have_every_form() {
    let lines = lines();
    for form in FORMS.iter().map(|form| form.name()).filter(|&name| name != "room") {
        let here = lines.iter().any(|(line, _)| line.split(' ').next() == Some(form));
        assert!(here || form == "limits", "{form}");
    }
}

#[test]
fn all_lines_are_one_scenario() {
    let lines = lines();
    let text: String = lines.iter().map(|(line, _)| format!("{line}\n")).collect();
    let text = format!("room 4 servers 7 drives 16 slots\n{text}");
    let scenario = Scenario::read(&text).expect("every line is one");
    let spoken: Vec<(usize, Spoken)> =
        (2..).zip(lines.into_iter().map(|(_, spoken)| spoken)).collect();
    assert_eq!(scenario.lines, spoken);
    assert_eq!(scenario.to_string(), text);
}

#[test]
fn a_number_is_written_in_the_shortest_way() {
    for (line, written) in [
        ("offer 0 slot 0 number 66825", "offer 0 slot 0 enter piece 5 hoard 9"),
        ("put 1 slot 2 number 131330", "put 1 slot 2 move piece 1 hoard 2"),
        ("put 1 slot 2 number 212736", "put 1 slot 2 strike piece 63"),
        ("offer 00 slot 007 number 0000000000000", "offer 0 slot 7 number 0"),
        ("bid 01 slot 0255 ballot 04294967295", "bid 1 slot 255 ballot 4294967295"),
        ("offer 0 slot 0 enter piece 063 hoard 0255", "offer 0 slot 0 enter piece 63 hoard 255"),
    ] {
        assert_eq!(read(line).to_string(), written);
    }
}

#[test]
fn every_size_of_a_room_is_read_and_written() {
    for (text, servers, drives, slots) in [
        ("room 1 servers 1 drives 1 slots\n", 1, 1, 1),
        ("room 4 servers 7 drives 16 slots\n", 4, 7, 16),
        ("room 1 servers 7 drives 16 slots\n", 1, 7, 16),
        ("room 4 servers 1 drives 16 slots\n", 4, 1, 16),
        ("room 4 servers 7 drives 1 slots\n", 4, 7, 1),
    ] {
        let scenario = Scenario::read(text).expect(text);
        assert_eq!(scenario.sizes, Sizes { servers, drives, slots });
        assert_eq!((scenario.limits, scenario.lines.len()), (None, 0));
        assert_eq!(scenario.to_string(), text);
    }
}

#[test]
fn limits_are_read_and_written() {
    for (line, limits) in [
        ("limits 1 1 1 1 1 1 1 1", [1; 8]),
        ("limits 255 255 255 255 255 255 255 255", [255; 8]),
        ("limits 255 255 200 200 120 120 60 60", [255, 255, 200, 200, 120, 120, 60, 60]),
        ("limits 1 2 3 4 5 6 7 255", [1, 2, 3, 4, 5, 6, 7, 255]),
    ] {
        let text = format!("{ROOM}{line}\n");
        let scenario = Scenario::read(&text).expect(line);
        assert_eq!(scenario.limits, Some((2, Limits::of(limits))));
        assert_eq!(scenario.room_limits(), Limits::of(limits));
        assert_eq!(scenario.to_string(), text);
    }
    let usual = Limits::of([255, 255, 200, 200, 120, 120, 60, 60]);
    assert_eq!(Scenario::read(ROOM).map(|scenario| scenario.room_limits()), Ok(usual));
}
