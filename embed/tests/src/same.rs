//! The types of both implementations, and the calls on records.

use other::{Answer, Step};
use register::Error;

/// The same step for the register.
pub fn register_step(step: Step) -> register::Step {
    match step {
        Step::Offer { server, slot, number } => {
            register::Step::Offer { server, slot, command: number }
        }
        Step::Recall { server, slot, drive } => register::Step::Recall { server, slot, drive },
        Step::Rejoin { server, slot, number } => {
            register::Step::Rejoin { server, slot, ballot: number }
        }
        Step::Bid { server, slot, number } => register::Step::Bid { server, slot, ballot: number },
        Step::Write { server, slot, drive } => register::Step::Write { server, slot, drive },
        Step::Read { server, slot, drive, other } => {
            register::Step::Read { server, slot, drive, other }
        }
        Step::Finish { server, slot } => register::Step::Finish { server, slot },
        Step::Fail { server } => register::Step::Fail { server },
        Step::DriveOff { drive } => register::Step::DriveOff { drive },
        Step::DriveOn { drive } => register::Step::DriveOn { drive },
    }
}

/// The register's answer as the other implementation has it.
pub fn answer(answer: Result<register::Answer, Error>) -> Answer {
    match answer {
        Ok(register::Answer::Done) => Answer::Done,
        Ok(register::Answer::Outbid(ballot)) => Answer::Outbid(ballot),
        Ok(register::Answer::Chosen(command)) => Answer::Chosen(command),
        Ok(register::Answer::Committed(command)) => Answer::Committed(command),
        Ok(answer) => panic!("an answer that no step has: {answer:?}"),
        Err(error) => Answer::Refused(error.number()),
    }
}

/// Reads a record by both.
pub fn record_read(bytes: &[u8]) -> Result<(Step, usize), u32> {
    let theirs = other::read_record(bytes);
    let mine = register::Step::read(bytes).map_err(Error::number);
    assert_eq!(mine, theirs.map(|(step, used)| (register_step(step), used)), "read {bytes:02x?}");
    theirs
}

/// Writes the record of a step by both, into a buffer with these bytes.
pub fn record_written(step: Step, buffer: &[u8]) -> Result<usize, u32> {
    let (mut mine, mut theirs) = (buffer.to_vec(), buffer.to_vec());
    let their_answer = other::write_record(step, &mut theirs);
    let my_answer = register_step(step).write(&mut mine).map_err(Error::number);
    assert_eq!(my_answer, their_answer, "write {step:?} in {} bytes", buffer.len());
    assert_eq!(mine, theirs, "bytes of {step:?}");
    if their_answer.is_err() {
        assert_eq!(mine, buffer, "bytes after the refusal of {step:?}");
    }
    their_answer
}
