//! What the program rehearse prints for an input.

use crate::catalogue::{catalogue, PIECES};
use crate::commands::USUAL_LIMITS;
use crate::records::read_record;
use crate::refusal;
use crate::room::{open, room_length, MOST_CELLS};
use crate::steps::{step, Answer};

/// The largest number of bytes that rehearse takes.
pub const INPUT_LIMIT: usize = 65_536;

/// The bytes that the program rehearse prints for `input`.
pub fn rehearse(input: &[u8]) -> Vec<u8> {
    let mut out = Vec::new();
    if let Err(number) = run(input, &mut out) {
        out.extend_from_slice(b"open refused ");
        put_number(&mut out, number);
        out.push(b'\n');
    }
    out
}

/// Prints the lines of the steps and of the servers, or answers why the room
/// was not opened.
fn run(input: &[u8], out: &mut Vec<u8>) -> Result<(), u32> {
    let &[servers, drives, slots, ref records @ ..] = input else {
        return Err(refusal::CUT_SHORT);
    };
    if input.len() > INPUT_LIMIT {
        return Err(refusal::LENGTH);
    }
    let (servers, drives, slots) = (servers.into(), drives.into(), slots.into());
    let mut cells = [0; MOST_CELLS];
    let room = &mut cells[..room_length(servers, drives, slots) as usize];
    open(room, servers, drives, slots, &USUAL_LIMITS)?;
    put_steps(out, room, records);
    for server in 0..servers {
        put_server(out, room, server)?;
    }
    Ok(())
}

/// Takes the steps of the records, a line for each, until the records end or
/// one can't be read.
fn put_steps(out: &mut Vec<u8>, room: &mut [u32], mut records: &[u8]) {
    let mut index = 0;
    while !records.is_empty() {
        match read_record(records) {
            Ok((next, length)) => {
                put_answer(out, index, step(room, next));
                records = &records[length..];
            }
            Err(number) => {
                put_answer(out, index, Answer::Refused(number));
                return;
            }
        }
        index += 1;
    }
}

/// The line of one step: index, answer word, number.
fn put_answer(out: &mut Vec<u8>, index: u32, answer: Answer) {
    let (word, number): (&[u8], u32) = match answer {
        Answer::Done => (b" done ", 0),
        Answer::Outbid(ballot) => (b" outbid ", ballot),
        Answer::Chosen(command) => (b" chosen ", command),
        Answer::Committed(command) => (b" committed ", command),
        Answer::Refused(number) => (b" refused ", number),
    };
    put_number(out, index);
    out.extend_from_slice(word);
    put_number(out, number);
    out.push(b'\n');
}

/// The line of one server: the two counts of its catalogue.
fn put_server(out: &mut Vec<u8>, room: &[u32], server: u32) -> Result<(), u32> {
    let (taken, skipped) = catalogue(room, server, &mut [0; PIECES])?;
    out.extend_from_slice(b"server ");
    put_number(out, server);
    out.extend_from_slice(b" taken ");
    put_number(out, taken);
    out.extend_from_slice(b" skipped ");
    put_number(out, skipped);
    out.push(b'\n');
    Ok(())
}

/// A number in decimal digits.
fn put_number(out: &mut Vec<u8>, mut number: u32) {
    let mut digits = [0; 10];
    let mut first = digits.len();
    loop {
        first -= 1;
        digits[first] = b'0' + (number % 10) as u8;
        number /= 10;
        if number == 0 {
            break;
        }
    }
    out.extend_from_slice(&digits[first..]);
}
