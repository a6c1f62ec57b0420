//! A run in words: the room's sizes, its limits, and a call on each line.
//!
//! - `forms`: the form of each line.
//! - `line`: the words of one line, read by a form.
//! - `call`: the calls, from the values of a line and back.
//! - `mistake`: what is wrong with a line.

mod call;
mod forms;
mod line;
mod mistake;

use std::fmt;

use register::{room_length, Limits};

pub(crate) use call::{command_words, line_words};
pub use call::{Call, Spoken};
pub(crate) use forms::{form, COMMAND_WORDS};
pub use forms::{Form, Verb, FORMS};
pub(crate) use line::lines;
pub use mistake::Mistake;

use call::filled;
use line::Line;

/// The sizes of a room.
#[derive(Clone, Copy, Debug, PartialEq, Eq)]
pub struct Sizes {
    /// The servers, 1 to 4.
    pub servers: u32,
    /// The drives, 1 to 7.
    pub drives: u32,
    /// The slots, 1 to 16.
    pub slots: u32,
}

impl Sizes {
    /// These sizes, none where no room has them.
    pub fn of(servers: u32, drives: u32, slots: u32) -> Option<Sizes> {
        room_length(servers, drives, slots).map(|_| Sizes { servers, drives, slots })
    }
}

/// A run that is to be played.
#[derive(Clone, Debug, PartialEq, Eq)]
pub struct Scenario {
    /// The sizes of its room, which fit.
    pub sizes: Sizes,
    /// The limits with which the room is opened, and the line that says so.
    pub limits: Option<(usize, Limits)>,
    /// What its lines ask for, in their order, each with the number of its line.
    pub lines: Vec<(usize, Spoken)>,
}

impl Scenario {
    /// Reads a scenario.
    ///
    /// ```
    /// use hoard::scenario::Scenario;
    ///
    /// let scenario = Scenario::read("room 1 servers 1 drives 1 slots\nfail 0 # and again\n")?;
    /// assert_eq!(scenario.lines[0].1.to_string(), "fail 0");
    /// let mistake = Scenario::read("room 1 servers 1 drives 1 slots\nfial 0\n").unwrap_err();
    /// assert_eq!((mistake.line, mistake.word.as_deref()), (2, Some("fial")));
    /// # Ok::<(), hoard::scenario::Mistake>(())
    /// ```
    ///
    /// # Errors
    ///
    /// The first mistake in the text.
    pub fn read(text: &str) -> Result<Scenario, Mistake> {
        let mut lines = lines(text);
        let end = text.lines().count().max(1);
        let sizes = read_room(lines.next().unwrap_or_else(|| Line::new(end, "")))?;
        let mut scenario = Scenario { sizes, limits: None, lines: Vec::new() };
        for line in lines {
            scenario.read_line(line)?;
        }
        Ok(scenario)
    }

    /// The limits of its room.
    pub fn room_limits(&self) -> Limits {
        self.limits.map_or_else(Limits::default, |(_, limits)| limits)
    }

    /// The lines before its calls: the room, and the limits where they are named.
    pub fn opening(&self) -> String {
        let Sizes { servers, drives, slots } = self.sizes;
        let mut lines = line_words(Verb::Room, filled([servers, drives, slots])) + "\n";
        if let Some((_, limits)) = self.limits {
            lines += &(line_words(Verb::Limits, limits.numbers()) + "\n");
        }
        lines
    }

    /// Reads a line that is not the first.
    fn read_line(&mut self, mut line: Line) -> Result<(), Mistake> {
        let number = line.number;
        let found = FORMS.iter().find(|form| Some(form.name()) == line.peek());
        let Some(form) = found.filter(|form| self.allows(form.verb)) else {
            return Err(line.mistake(self.expected()));
        };
        if form.verb == Verb::Limits {
            self.limits = Some((number, Limits::of(line.values(form)?)));
        } else if let Some(spoken) = Spoken::of(form.verb, line.values(form)?) {
            self.lines.push((number, spoken));
        }
        Ok(())
    }

    /// Whether a line with this verb may come next. The limits stand before the calls.
    fn allows(&self, verb: Verb) -> bool {
        match verb {
            Verb::Room => false,
            Verb::Limits => self.limits.is_none() && self.lines.is_empty(),
            _ => true,
        }
    }

    /// The first words that a line may have.
    fn expected(&self) -> String {
        let names = FORMS.iter().filter(|form| self.allows(form.verb)).map(Form::name);
        format!("one of the words {}", names.collect::<Vec<_>>().join(", "))
    }
}

/// Reads the first line.
fn read_room(mut line: Line) -> Result<Sizes, Mistake> {
    let [servers, drives, slots, ..] = line.values(form(Verb::Room))?;
    Ok(Sizes { servers, drives, slots })
}

impl fmt::Display for Scenario {
    fn fmt(&self, f: &mut fmt::Formatter<'_>) -> fmt::Result {
        f.write_str(&self.opening())?;
        self.lines.iter().try_for_each(|(_, spoken)| writeln!(f, "{spoken}"))
    }
}
