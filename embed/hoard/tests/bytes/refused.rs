//! Scenarios that have no bytes, and bytes that are no scenario. What is named by -o is not
//! written.

use other::generator::{make_input, Chance};
use other::{rehearse, USUAL_LIMITS};

use crate::common::folder::Folder;
use crate::common::program::{done, hoard};
use crate::common::speech;

/// The most bytes that rehearse reads.
const MOST: usize = 65_536;

/// Asserts that this is refused with these words behind the name of the file, and writes nothing.
fn refuse(folder: &Folder, arguments: &[&str], input: &[u8], words: &str) {
    let out = folder.file("out");
    let arguments: Vec<&str> = arguments.iter().copied().chain(["-o", &out]).collect();
    let output = hoard(&arguments, input);
    assert_eq!((output.status, output.out), (Some(1), Vec::new()), "{arguments:?}");
    assert_eq!(output.err, format!("hoard: standard input:{words}\n"));
    assert_eq!(folder.held("out"), None);
}

#[test]
fn own_limits_have_no_bytes() {
    let folder = Folder::new("own limits");
    for cabinet in 0..USUAL_LIMITS.len() {
        let mut own = USUAL_LIMITS;
        own[cabinet] -= 1;
        let line = speech::limits(&own);
        let text = format!("# own limits\nroom 1 servers 1 drives 1 slots\n\n{line}\nfail 0\n");
        let mistake = format!(
            "4:1: found '{line}', expected 'limits 255 255 200 200 120 120 60 60', since rehearse \
             knows no others"
        );
        refuse(&folder, &["bytes", "-"], text.as_bytes(), &mistake);
        refuse(&folder, &["bytes", "-", "--hex"], text.as_bytes(), &mistake);
    }
}

#[test]
fn usual_limits_have_bytes() {
    let line = speech::limits(&USUAL_LIMITS);
    let text = format!("room 1 servers 1 drives 1 slots\n{line}\nfail 0\n");
    assert_eq!(done(&["bytes", "-"], text.as_bytes()), [1, 1, 1, 0, 8]);
}

/// A scenario of this many bytes: steps of two bytes, and one of three where that is odd.
fn scenario_of(bytes: usize) -> String {
    let odd = (bytes - 3) % 2;
    let steps = "fail 0\n".repeat((bytes - 3) / 2 - odd);
    let longer = "fail 1\n".repeat(odd);
    format!("room 2 servers 1 drives 1 slots\n{steps}{longer}")
}

#[test]
fn as_many_bytes_as_rehearse_reads_are_none_too_many() {
    for length in [MOST - 1, MOST] {
        let bytes = done(&["bytes", "-"], scenario_of(length).as_bytes());
        assert_eq!(bytes.len(), length);
        let lines = done(&["words", "-"], &bytes);
        assert_eq!(String::from_utf8(lines), Ok(scenario_of(length)));
    }
}

#[test]
fn too_many_bytes_are_refused() {
    let folder = Folder::new("too many");
    for length in [MOST + 1, MOST + 2, 2 * MOST] {
        let words = format!(" the scenario takes {length} bytes, and rehearse reads 65536 at most");
        refuse(&folder, &["bytes", "-"], scenario_of(length).as_bytes(), &words);
        let mut bytes = vec![1, 1, 1];
        bytes.resize(length, 8);
        let output = hoard(&["words", "-"], &bytes);
        assert_eq!((output.status, output.out), (Some(1), Vec::new()));
        assert!(
            output.err.contains("the room is not opened: ") && output.err.contains("(refusal 2)")
        );
    }
}

/// What rehearse prints of a room that is not opened, or of a record that is not read: `open` or
/// the number of the record, and that of the refusal.
fn unread(printed: &str) -> Option<(&str, &str)> {
    printed.lines().find_map(|line| {
        let (record, number) = line.split_once(" refused ")?;
        (record == "open" || ["14", "15"].contains(&number)).then_some((record, number))
    })
}

/// Bytes of which rehearse opens no room, or does not read a record, are no scenario. The message
/// has the number of the refusal, and that of the record as rehearse counts.
#[test]
fn damaged_inputs_are_refused() {
    let (mut rooms, mut records) = (0, 0);
    for index in 0..250 {
        let input = make_input(11, index, 60);
        let printed = String::from_utf8(rehearse(&input)).expect("rehearse prints text");
        let output = hoard(&["words", "-"], &input);
        let Some((record, number)) = unread(&printed) else {
            assert_eq!((output.status, output.err.as_str()), (Some(0), ""), "{index}");
            continue;
        };
        assert_eq!((output.status, output.out), (Some(1), Vec::new()), "{index}");
        let end = format!(" (refusal {number})\n");
        let begin = match record {
            "open" => "hoard: standard input: the room is not opened: ".to_string(),
            _ => format!("hoard: standard input: record {record}, at byte "),
        };
        assert!(output.err.starts_with(&begin) && output.err.ends_with(&end), "{}", output.err);
        *(if record == "open" { &mut rooms } else { &mut records }) += 1;
    }
    assert!(rooms > 10 && records > 20, "{rooms} {records}");
}

/// The place of a record that is not read, by hand.
#[test]
fn the_place_of_a_record_is_named() {
    let folder = Folder::new("place");
    for (input, words) in [
        (&[1, 1][..], " the room is not opened: the record is cut short (refusal 14)"),
        (
            &[1, 1, 17],
            " the room is not opened: the sizes fit no room: 1 to 4 servers, 1 to 7 drives, 1 to 16 \
             slots (refusal 1)",
        ),
        (&[1, 1, 1, 0, 8, 1, 8, 1, 0], " record 2, at byte 8: the record is cut short (refusal 14)"),
        (&[1, 1, 1, 32], " record 0, at byte 3: the record is malformed (refusal 15)"),
        (&[1, 1, 1, 0, 8, 1, 8, 0], " record 1, at byte 5: the record is malformed (refusal 15)"),
    ] {
        refuse(&folder, &["words", "-"], input, words);
        let digits: Vec<String> = input.iter().map(|byte| format!("{byte:02x}")).collect();
        refuse(&folder, &["words", "-", "--hex"], digits.join(" ").as_bytes(), words);
    }
}

/// Sizes, most of which fit, and any bytes, many of which are small; or fewer than three bytes.
fn any_input(chance: &mut Chance) -> Vec<u8> {
    let mut input = vec![chance.from_to(1, 5) as u8, chance.from_to(1, 8) as u8, 1];
    if chance.one_in(6) {
        input.pop();
    }
    input.extend((0..chance.below(6)).map(|_| match chance.below(2) {
        0 => chance.below(12) as u8,
        _ => chance.draw() as u8,
    }));
    input
}

/// Any bytes at all are words or are refused, and nothing panics.
#[test]
fn any_bytes_are_words_or_refused() {
    let mut words = 0;
    for index in 0..150 {
        let input = any_input(&mut Chance::of_run(12, index));
        let output = hoard(&["words", "-"], &input);
        let refused = unread(&String::from_utf8_lossy(&rehearse(&input))).is_some();
        assert_eq!(output.status, Some(i32::from(refused)), "{input:?} {}", output.err);
        words += usize::from(!refused);
    }
    assert!((10..140).contains(&words), "{words}");
}
