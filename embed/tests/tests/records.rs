//! Step records, read and written by both implementations.

use other::generator::Chance;
use other::{Answer, Step, USUAL_LIMITS};
use tests::{record_read, record_written, Pair};

/// Every map, kind and length, with fields from a few patterns.
#[test]
fn every_map_kind_and_length() {
    let mut good = 0;
    let mut refused = [0; 16];
    for map in 0..=255 {
        for kind in 0..=255 {
            for fill in [0x00, 0x01, 0xff] {
                let bytes = [map, kind, fill, fill, fill, fill, fill, fill, fill, fill];
                for length in 0..=bytes.len() {
                    match record_read(&bytes[..length]) {
                        Ok(_) => good += 1,
                        Err(number) => refused[number as usize] += 1,
                    }
                }
            }
        }
    }
    println!("{good} read, refused {refused:?}");
    assert!(good > 500 && refused[14] > 0 && refused[15] > 0);
}

/// Records of good maps and kinds whose field bytes are any, zeros among them.
#[test]
fn any_fields() {
    let mut chance = Chance::new(23);
    let mut good = 0;
    for _ in 0..400_000 {
        let mut bytes: Vec<u8> = (0..10).map(|_| any_byte(&mut chance)).collect();
        bytes[0] = chance.below(34) as u8;
        bytes[1] = chance.below(12) as u8;
        if let Ok((step, used)) = record_read(&bytes) {
            good += 1;
            // What was read is written as the same bytes.
            let mut again = [0; 8];
            assert_eq!(other::write_record(step, &mut again), Ok(used));
            assert_eq!(again[..used], bytes[..used]);
            assert_eq!(record_written(step, &bytes[..used]), Ok(used));
        }
    }
    println!("{good} records read");
    assert!(good > 20_000);
}

/// Any step, written into buffers of every length, and read back.
#[test]
fn any_step_written() {
    let mut chance = Chance::new(29);
    for _ in 0..50_000 {
        let step = any_step(&mut chance);
        for length in 0..=10 {
            let buffer: Vec<u8> = (0..length).map(|_| chance.draw() as u8).collect();
            if let Ok(used) = record_written(step, &buffer) {
                let mut bytes = [0; 8];
                let _ = other::write_record(step, &mut bytes);
                assert_eq!(record_read(&bytes[..used]), Ok((step, used)));
            }
        }
    }
}

/// A bad record leaves the room alone; bytes beyond a record are ignored.
#[test]
fn records_on_a_room() {
    let mut chance = Chance::new(31);
    let mut pair = Pair::over(vec![0; 196]);
    pair.open(2, 3, 4, USUAL_LIMITS).expect("the sizes fit");
    let mut refused = [0; 16];
    for _ in 0..200_000 {
        let mut bytes: Vec<u8> = (0..chance.below(11)).map(|_| any_byte(&mut chance) % 5).collect();
        if let Some(map) = bytes.first_mut() {
            *map = chance.below(34) as u8;
        }
        if let Some(kind) = bytes.get_mut(1) {
            *kind = chance.below(12) as u8;
        }
        if let Answer::Refused(number) = pair.step_record(&bytes) {
            refused[number as usize] += 1;
        }
    }
    println!("refused {refused:?}");
    assert!(refused[14] > 0 && refused[15] > 0);
}

/// A byte that is 0 once in four times.
fn any_byte(chance: &mut Chance) -> u8 {
    if chance.one_in(4) {
        0
    } else {
        chance.draw() as u8
    }
}

fn any_step(chance: &mut Chance) -> Step {
    let (server, slot) = (any_byte(chance), any_byte(chance));
    let (drive, other) = (any_byte(chance), any_byte(chance));
    let number = u32::from_le_bytes([0; 4].map(|_: u8| any_byte(chance)));
    match chance.from_to(1, 10) {
        1 => Step::Offer { server, slot, number },
        2 => Step::Recall { server, slot, drive },
        3 => Step::Rejoin { server, slot, number },
        4 => Step::Bid { server, slot, number },
        5 => Step::Write { server, slot, drive },
        6 => Step::Read { server, slot, drive, other },
        7 => Step::Finish { server, slot },
        8 => Step::Fail { server },
        9 => Step::DriveOff { drive },
        _ => Step::DriveOn { drive },
    }
}
