//! Step records: a map byte, a kind byte, then the fields that are not 0.

use crate::refusal;
use crate::steps::Step;

const SERVER: u8 = 1;
const SLOT: u8 = 2;
const DRIVE: u8 = 4;
const OTHER: u8 = 8;
const NUMBER: u8 = 16;

/// The fields that each kind has. No kind is 0.
const FIELDS: [u8; 11] = [
    0,
    SERVER | SLOT | NUMBER,
    SERVER | SLOT | DRIVE,
    SERVER | SLOT | NUMBER,
    SERVER | SLOT | NUMBER,
    SERVER | SLOT | DRIVE,
    SERVER | SLOT | DRIVE | OTHER,
    SERVER | SLOT,
    SERVER,
    DRIVE,
    DRIVE,
];

/// The length of the longest record that a step can have.
pub const LONGEST_RECORD: usize = 8;

/// The fields of a step, 0 where its kind lacks one.
#[derive(Clone, Copy, Default)]
struct Fields {
    kind: u8,
    server: u8,
    slot: u8,
    drive: u8,
    other: u8,
    number: u32,
}

/// The length of a record with this map byte, which is below 32.
fn length(map: u8) -> usize {
    let number = if map & NUMBER != 0 { 4 } else { 0 };
    2 + (map & !NUMBER).count_ones() as usize + number
}

/// Reads the record at the start of `bytes`. Answers the step and the length
/// of its record.
pub fn read_record(bytes: &[u8]) -> Result<(Step, usize), u32> {
    let &map = bytes.first().ok_or(refusal::CUT_SHORT)?;
    if map >= 32 {
        return Err(refusal::MALFORMED);
    }
    let &kind = bytes.get(1).ok_or(refusal::CUT_SHORT)?;
    if !(1..=10).contains(&kind) || map & !FIELDS[kind as usize] != 0 {
        return Err(refusal::MALFORMED);
    }
    let length = length(map);
    let fields = bytes.get(2..length).ok_or(refusal::CUT_SHORT)?;
    let fields = read_fields(map, kind, fields).ok_or(refusal::MALFORMED)?;
    Ok((step_of(fields), length))
}

/// The fields that stand in `bytes`, none where one of them is 0.
fn read_fields(map: u8, kind: u8, bytes: &[u8]) -> Option<Fields> {
    let mut rest = bytes.iter().copied();
    let mut field = |bit: u8| match map & bit {
        0 => Some(0),
        _ => rest.next().filter(|&byte| byte != 0),
    };
    let (server, slot) = (field(SERVER)?, field(SLOT)?);
    let (drive, other) = (field(DRIVE)?, field(OTHER)?);
    let mut number = 0;
    if map & NUMBER != 0 {
        number = rest.rev().fold(0, |high, byte| high << 8 | u32::from(byte));
        if number == 0 {
            return None;
        }
    }
    Some(Fields { kind, server, slot, drive, other, number })
}

/// The step with these fields. The kind is 1 to 10.
fn step_of(fields: Fields) -> Step {
    let Fields { kind, server, slot, drive, other, number } = fields;
    match kind {
        1 => Step::Offer { server, slot, number },
        2 => Step::Recall { server, slot, drive },
        3 => Step::Rejoin { server, slot, number },
        4 => Step::Bid { server, slot, number },
        5 => Step::Write { server, slot, drive },
        6 => Step::Read { server, slot, drive, other },
        7 => Step::Finish { server, slot },
        8 => Step::Fail { server },
        9 => Step::DriveOff { drive },
        _ => Step::DriveOn { drive },
    }
}

/// The fields of a step.
fn fields_of(step: Step) -> Fields {
    let none = Fields::default();
    match step {
        Step::Offer { server, slot, number } => Fields { kind: 1, server, slot, number, ..none },
        Step::Recall { server, slot, drive } => Fields { kind: 2, server, slot, drive, ..none },
        Step::Rejoin { server, slot, number } => Fields { kind: 3, server, slot, number, ..none },
        Step::Bid { server, slot, number } => Fields { kind: 4, server, slot, number, ..none },
        Step::Write { server, slot, drive } => Fields { kind: 5, server, slot, drive, ..none },
        Step::Read { server, slot, drive, other } => {
            Fields { kind: 6, server, slot, drive, other, number: 0 }
        }
        Step::Finish { server, slot } => Fields { kind: 7, server, slot, ..none },
        Step::Fail { server } => Fields { kind: 8, server, ..none },
        Step::DriveOff { drive } => Fields { kind: 9, drive, ..none },
        Step::DriveOn { drive } => Fields { kind: 10, drive, ..none },
    }
}

/// Writes the record of `step` at the start of `bytes` and answers its length.
pub fn write_record(step: Step, bytes: &mut [u8]) -> Result<usize, u32> {
    let fields = fields_of(step);
    let singles = [
        (SERVER, fields.server),
        (SLOT, fields.slot),
        (DRIVE, fields.drive),
        (OTHER, fields.other),
    ];
    let mut map = if fields.number != 0 { NUMBER } else { 0 };
    for (bit, value) in singles {
        if value != 0 {
            map |= bit;
        }
    }
    let length = length(map);
    let record = bytes.get_mut(..length).ok_or(refusal::LENGTH)?;
    record[0] = map;
    record[1] = fields.kind;
    let mut at = 2;
    for (_, value) in singles {
        if value != 0 {
            record[at] = value;
            at += 1;
        }
    }
    if fields.number != 0 {
        record[at..].copy_from_slice(&fields.number.to_le_bytes());
    }
    Ok(length)
}
