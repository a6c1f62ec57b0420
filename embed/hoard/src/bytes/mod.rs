//! A scenario as the bytes that the program rehearse reads, and back.
//!
//! - `hexadecimal`: such bytes as text.

mod hexadecimal;

use std::convert::Infallible;
use std::fmt;

use register::{Answer, Error, Limits, Record, Step};

use crate::run::{Event, Moment, Player, Reply};
use crate::scenario::{line_words, Call, Mistake, Scenario, Sizes, Spoken, Verb};

pub use hexadecimal::{hexadecimal, of_hexadecimal};

/// The most bytes that rehearse reads.
pub const MOST_BYTES: usize = 65_536;

/// Why a scenario has no bytes.
#[derive(Clone, Debug, PartialEq, Eq)]
pub enum NoBytes {
    /// A line asks for what rehearse can't do.
    Line(Mistake),
    /// There are more bytes than rehearse reads.
    TooMany(usize),
    /// The library refused to open the room.
    NotOpened(Error),
}

impl fmt::Display for NoBytes {
    fn fmt(&self, f: &mut fmt::Formatter<'_>) -> fmt::Result {
        match self {
            NoBytes::Line(mistake) => mistake.fmt(f),
            NoBytes::TooMany(bytes) => {
                write!(
                    f,
                    "the scenario takes {bytes} bytes, and rehearse reads {MOST_BYTES} at most"
                )
            }
            NoBytes::NotOpened(error) => error.fmt(f),
        }
    }
}

/// The bytes of a scenario: its sizes, and the record of each step.
///
/// The calls that have no record stand as what they do: a put that is accepted as the offer
/// that it makes, a settle as the steps that it takes, an ask and a put that is refused as
/// nothing. So rehearse comes to the same room.
///
/// # Errors
///
/// Where the room has other limits than the usual ones, with which rehearse opens it, and where
/// there are too many bytes.
pub fn bytes_of(scenario: &Scenario) -> Result<Vec<u8>, NoBytes> {
    if let Some((line, own)) = scenario.limits.filter(|&(_, own)| own != Limits::default()) {
        return Err(NoBytes::Line(own_limits(line, own)));
    }
    let Sizes { servers, drives, slots } = scenario.sizes;
    // The sizes of a room fit in bytes.
    let mut bytes = [servers, drives, slots].map(|size| size as u8).to_vec();
    let mut player = Player::open(scenario).map_err(NoBytes::NotOpened)?;
    for &(line, spoken) in &scenario.lines {
        let Ok(()) = player.play(line, spoken, &mut |moment| {
            let step = step_of(&moment);
            bytes.extend_from_slice(step.map(Record::of).as_ref().map_or(&[], Record::bytes));
            Ok::<(), Infallible>(())
        });
    }
    if bytes.len() > MOST_BYTES {
        return Err(NoBytes::TooMany(bytes.len()));
    }
    Ok(bytes)
}

/// That rehearse opens no room with these limits.
fn own_limits(line: usize, own: Limits) -> Mistake {
    let word = Some(line_words(Verb::Limits, own.numbers()));
    let usual = line_words(Verb::Limits, Limits::default().numbers());
    let expected = format!("'{usual}', since rehearse knows no others");
    Mistake { line, column: 1, word, expected }
}

/// The step whose record stands for what happened.
fn step_of(moment: &Moment) -> Option<Step> {
    let Moment::Made(Event { call, reply, .. }) = moment else { return None };
    match (*call, reply) {
        (Call::Step(step), _) => Some(step),
        (Call::Put { server, slot, command }, Reply::Answer(Answer::Done)) => {
            Some(Step::Offer { server, slot, command })
        }
        _ => None,
    }
}

/// Why bytes are no scenario.
#[derive(Clone, Copy, Debug, PartialEq, Eq)]
pub enum NoWords {
    /// The room is not opened.
    Room(Error),
    /// A record can't be read.
    Record {
        /// Its number, from 0, as rehearse counts.
        number: usize,
        /// Its first byte, from 0.
        at: usize,
        /// What is wrong with it.
        error: Error,
    },
}

impl fmt::Display for NoWords {
    fn fmt(&self, f: &mut fmt::Formatter<'_>) -> fmt::Result {
        match self {
            NoWords::Room(error) => write!(f, "the room is not opened: {error}"),
            NoWords::Record { number, at, error } => {
                write!(f, "record {number}, at byte {at}: {error}")
            }
        }
    }
}

/// The scenario whose bytes these are: each record is a line.
///
/// ```
/// use hoard::bytes::{bytes_of, scenario_of};
///
/// let bytes = [1, 1, 1, 0x00, 0x02, 0x00, 0x08];
/// let scenario = scenario_of(&bytes)?;
/// assert_eq!(
///     scenario.to_string(),
///     "room 1 servers 1 drives 1 slots\nrecall 0 slot 0 drive 0\nfail 0\n"
/// );
/// assert_eq!(bytes_of(&scenario).as_deref(), Ok(&bytes[..]));
/// # Ok::<(), hoard::bytes::NoWords>(())
/// ```
///
/// # Errors
///
/// Where rehearse would not open the room or not read a record.
pub fn scenario_of(bytes: &[u8]) -> Result<Scenario, NoWords> {
    let &[servers, drives, slots, ref records @ ..] = bytes else {
        return Err(NoWords::Room(Error::CutShort));
    };
    if bytes.len() > MOST_BYTES {
        return Err(NoWords::Room(Error::Length));
    }
    let sizes = Sizes::of(servers.into(), drives.into(), slots.into());
    let sizes = sizes.ok_or(NoWords::Room(Error::Sizes))?;
    let mut lines = Vec::new();
    let mut left = records;
    while !left.is_empty() {
        let (number, at) = (lines.len(), bytes.len() - left.len());
        let (step, used) =
            Step::read(left).map_err(|error| NoWords::Record { number, at, error })?;
        // The room stands on line 1.
        lines.push((number + 2, Spoken::Call(Call::Step(step))));
        left = &left[used..];
    }
    Ok(Scenario { sizes, limits: None, lines })
}
