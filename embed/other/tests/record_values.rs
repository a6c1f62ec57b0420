//! Step records, and what rehearse prints for the inputs that 01 names.

use other::{read_record, rehearse, write_record, Step};

/// The bytes of a text of hexadecimal numbers.
fn hex(text: &str) -> Vec<u8> {
    let byte = |word| u8::from_str_radix(word, 16).expect("a hexadecimal number");
    text.split_whitespace().map(byte).collect()
}

fn printed(input: &[u8]) -> String {
    String::from_utf8(rehearse(input)).expect("text")
}

const SAMPLE: &str = "01 01 01 10 01 09 05 01 00 10 03 01 00 00 00 00 02 \
    10 03 01 00 00 00 00 05 00 07 00 05 00 07";

const PRINTED: &str = "\
0 done 0
1 refused 10
2 done 0
3 done 0
4 done 0
5 chosen 66825
6 done 0
7 committed 66825
server 0 taken 1 skipped 0
";

#[test]
fn the_sample_prints_its_lines() {
    assert_eq!(printed(&hex(SAMPLE)), PRINTED);
}

#[test]
fn inputs_without_a_room_print_one_line() {
    for short in ["", "01", "01 01", "00 00"] {
        assert_eq!(printed(&hex(short)), "open refused 14\n");
    }
    for bad in ["00 01 01", "05 01 01", "01 08 01", "01 01 11", "01 01 00 00"] {
        assert_eq!(printed(&hex(bad)), "open refused 1\n");
    }
    let mut long = hex(SAMPLE);
    long.resize(65_537, 0);
    assert_eq!(printed(&long), "open refused 2\n");
    long[0] = 0;
    assert_eq!(printed(&long), "open refused 2\n");
    long.truncate(65_536);
    assert_eq!(printed(&long), "open refused 1\n");
}

#[test]
fn inputs_end_between_records_or_in_one() {
    let servers = "server 0 taken 0 skipped 0\nserver 1 taken 0 skipped 0\n";
    assert_eq!(printed(&hex("02 01 01")), servers);
    let cases = [
        ("00", "0 refused 14\n"),
        ("20", "0 refused 15\n"),
        ("00 08", "0 done 0\n"),
        ("00 08 01", "0 done 0\n1 refused 14\n"),
        ("00 08 00 0b 00 08", "0 done 0\n1 refused 15\n"),
        ("02 07 05 00 08", "0 refused 4\n1 done 0\n"),
    ];
    for (records, lines) in cases {
        let input = hex(&format!("02 01 01 {records}"));
        assert_eq!(printed(&input), format!("{lines}{servers}"), "{records}");
    }
}

/// The last piece of each cabinet enters its largest hoard, and the one above it.
#[test]
fn rehearse_opens_with_the_limits_of_01() {
    let mut input = hex("01 01 01");
    let mut lines = String::new();
    let mut index = 0;
    let limits =
        [(7, 255), (15, 255), (23, 200), (31, 200), (39, 120), (47, 120), (55, 60), (63, 60)];
    for (piece, limit) in limits {
        for (hoard, line) in [(limit, "done 0"), (limit + 1, "refused 5")] {
            let number: u32 = 65_536 + 256 * piece + hoard;
            let mut bytes = [0; 8];
            let offer = Step::Offer { server: 0, slot: 0, number };
            let length = write_record(offer, &mut bytes).expect("eight bytes are enough");
            input.extend(&bytes[..length]);
            lines += &format!("{index} {line}\n");
            index += 1;
        }
    }
    assert_eq!(printed(&input), lines + "server 0 taken 0 skipped 0\n");
}

#[test]
fn odd_records_are_refused_in_order() {
    let cases = [
        ("", 14),
        ("20", 15),
        ("ff", 15),
        ("40 07", 15),
        ("00", 14),
        ("1f", 14),
        ("00 00", 15),
        ("00 0b", 15),
        ("00 ff", 15),
        ("04 07", 15),
        ("10 08", 15),
        ("01 09 00", 15),
        ("08 05 01", 15),
        ("03 07", 14),
        ("03 07 00", 14),
        ("03 07 00 00", 15),
        ("03 07 01 00", 15),
        ("10 01 00 00 00", 14),
        ("10 01 00 00 00 00", 15),
        ("13 01 01 01 01 00 00", 14),
        ("0f 06 01 01 01", 14),
        ("0f 06 01 01 01 00", 15),
    ];
    for (bytes, number) in cases {
        assert_eq!(read_record(&hex(bytes)), Err(number), "{bytes}");
    }
}

#[test]
fn records_hold_the_fields_that_are_not_0() {
    let cases = [
        (Step::Offer { server: 0, slot: 0, number: 0 }, "00 01"),
        (Step::Offer { server: 0, slot: 0, number: 66_825 }, "10 01 09 05 01 00"),
        (Step::Recall { server: 1, slot: 0, drive: 255 }, "05 02 01 ff"),
        (Step::Rejoin { server: 1, slot: 2, number: 1 << 31 }, "13 03 01 02 00 00 00 80"),
        (Step::Bid { server: 0, slot: 9, number: 256 }, "12 04 09 00 01 00 00"),
        (Step::Write { server: 3, slot: 2, drive: 1 }, "07 05 03 02 01"),
        (Step::Read { server: 3, slot: 2, drive: 1, other: 4 }, "0f 06 03 02 01 04"),
        (Step::Read { server: 0, slot: 0, drive: 0, other: 4 }, "08 06 04"),
        (Step::Finish { server: 0, slot: 0 }, "00 07"),
        (Step::Fail { server: 2 }, "01 08 02"),
        (Step::DriveOff { drive: 6 }, "04 09 06"),
        (Step::DriveOn { drive: 0 }, "00 0a"),
    ];
    for (step, bytes) in cases {
        let bytes = hex(bytes);
        let length = bytes.len();
        let mut buffer = [0xee; 10];
        for short in 0..length {
            assert_eq!(write_record(step, &mut buffer[..short]), Err(2));
            assert_eq!(buffer, [0xee; 10]);
        }
        assert_eq!(write_record(step, &mut buffer), Ok(length));
        assert_eq!(buffer[..length], bytes);
        assert!(buffer[length..].iter().all(|&byte| byte == 0xee));
        assert_eq!(read_record(&buffer), Ok((step, length)));
        assert_eq!(read_record(&bytes), Ok((step, length)));
        for short in 0..length {
            assert_eq!(read_record(&bytes[..short]), Err(14));
        }
    }
}

#[test]
fn every_record_read_is_the_one_written() {
    // All of four bytes that can begin a record, and some rests.
    for first in 0..=0x0fff_u32 {
        for (third, fourth) in [(0, 0), (1, 0), (0, 1), (1, 1), (255, 3)] {
            let (map, kind) = ((first >> 4 & 63) as u8, (first & 15) as u8);
            let bytes = [map, kind, third, fourth, 2, 0, 0, 1];
            if let Ok((step, length)) = read_record(&bytes) {
                let mut buffer = [0; 8];
                assert_eq!(write_record(step, &mut buffer), Ok(length));
                assert_eq!(buffer[..length], bytes[..length]);
            }
        }
    }
}
