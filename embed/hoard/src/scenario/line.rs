//! The words of one line, read from left to right.

use register::Command;

use super::forms::{expected, field, fits, Field, Form, COMMAND_WORDS};
use super::mistake::Mistake;

/// The most fields of a form: those of limits.
pub const MOST_FIELDS: usize = 8;

/// The values of a form's fields, in their order, and 0 behind them.
pub type Values = [u32; MOST_FIELDS];

/// Where a line is read on.
pub struct Line<'a> {
    /// Its number, from 1.
    pub number: usize,
    text: &'a str,
    words: Vec<&'a str>,
    /// How many words were read.
    at: usize,
}

/// The lines of a text that have words.
pub fn lines(text: &str) -> impl Iterator<Item = Line<'_>> {
    let lines = text.lines().enumerate().map(|(place, text)| Line::new(place + 1, text));
    lines.filter(|line| line.peek().is_some())
}

impl<'a> Line<'a> {
    /// A line with its number. What stands behind a `#` is a comment.
    pub fn new(number: usize, line: &'a str) -> Line<'a> {
        let text = line.split('#').next().unwrap_or_default().trim_end();
        Line { number, text, words: text.split_whitespace().collect(), at: 0 }
    }

    /// The next word, none at the end.
    pub fn peek(&self) -> Option<&'a str> {
        self.words.get(self.at).copied()
    }

    /// That the word which comes next does not fit.
    pub fn mistake(&self, expected: impl Into<String>) -> Mistake {
        let word = self.peek();
        // Each word is a part of the text, so that its address tells where it stands.
        let start = word
            .map_or(self.text.len(), |word| word.as_ptr() as usize - self.text.as_ptr() as usize);
        Mistake {
            line: self.number,
            column: self.text[..start].chars().count() + 1,
            word: word.map(str::to_string),
            expected: expected.into(),
        }
    }

    /// Reads the values of a form, whose first word comes next, to the end of the line.
    pub fn values(&mut self, form: &Form) -> Result<Values, Mistake> {
        let mut values = [0; MOST_FIELDS];
        let mut places = values.iter_mut();
        for word in form.words.split(' ') {
            match field(word) {
                None => self.keyword(word)?,
                Some(kind) => {
                    let value = self.field(kind, word)?;
                    if let Some(place) = places.next() {
                        *place = value;
                    }
                }
            }
        }
        self.end()?;
        Ok(values)
    }

    /// Reads every word of the line in one way.
    pub fn all<T>(
        mut self,
        read: impl Fn(&str) -> Option<T>,
        expected: &str,
    ) -> Result<Vec<T>, Mistake> {
        let mut values = Vec::new();
        while self.peek().is_some() {
            values.push(self.take(&read, || expected.to_string())?);
        }
        Ok(values)
    }

    /// Reads a word that stands for itself.
    fn keyword(&mut self, word: &str) -> Result<(), Mistake> {
        self.take(|next| (next == word).then_some(()), || format!("'{word}'"))
    }

    /// Reads what a word in capitals stands for.
    fn field(&mut self, kind: Field, word: &str) -> Result<u32, Mistake> {
        match kind {
            Field::Byte => {
                let byte = |next: &str| number(next).filter(|&value| value <= u8::MAX.into());
                self.take(|next| byte(next).filter(|&value| fits(word, value)), || expected(word))
            }
            Field::Number => self.take(number, || expected(word)),
            Field::Command => self.command(),
            Field::Switch => self.take(switch, || "'off' or 'on'".to_string()),
        }
    }

    /// Reads a command in words, or `number` and any number, which need be none.
    fn command(&mut self) -> Result<u32, Mistake> {
        let first = self.take(
            |next| COMMAND_WORDS.into_iter().find(|&first| first == next),
            || "a command: 'enter', 'move', 'strike' or 'number'".to_string(),
        )?;
        if first == "number" {
            return self.field(Field::Number, "NUMBER");
        }
        self.keyword("piece")?;
        let piece = self.part("a piece from 0 to 63", Command::strike)?;
        if first == "strike" {
            return self.made(Command::strike(piece));
        }
        self.keyword("hoard")?;
        let hoard = self.part("a hoard from 1 to 255", |hoard| Command::enter(piece, hoard))?;
        let make = if first == "enter" { Command::enter } else { Command::move_to };
        self.made(make(piece, hoard))
    }

    /// Reads a piece or a hoard. Which there are is the library's to say.
    fn part(
        &mut self,
        expected: &str,
        judge: impl Fn(u8) -> Result<Command, register::Error>,
    ) -> Result<u8, Mistake> {
        let byte = |next: &str| number(next).and_then(|part| u8::try_from(part).ok());
        let known = |next: &str| byte(next).filter(|&part| judge(part).is_ok());
        self.take(known, || expected.to_string())
    }

    /// The number of a command whose parts were judged.
    fn made(&self, command: Result<Command, register::Error>) -> Result<u32, Mistake> {
        command.map(Command::number).map_err(|error| self.mistake(error.text()))
    }

    /// Takes the next word as what `read` makes of it.
    fn take<T>(
        &mut self,
        read: impl FnOnce(&str) -> Option<T>,
        expected: impl FnOnce() -> String,
    ) -> Result<T, Mistake> {
        let Some(value) = self.peek().and_then(read) else {
            return Err(self.mistake(expected()));
        };
        self.at += 1;
        Ok(value)
    }

    /// That the line ends here.
    fn end(&self) -> Result<(), Mistake> {
        if self.peek().is_none() {
            Ok(())
        } else {
            Err(self.mistake("the end of the line"))
        }
    }
}

/// A number in decimal digits.
fn number(word: &str) -> Option<u32> {
    // A sign is no digit, and parse would take one.
    word.bytes().all(|byte| byte.is_ascii_digit()).then(|| word.parse().ok()).flatten()
}

/// `off` is 0 and `on` is 1.
fn switch(word: &str) -> Option<u32> {
    ["off", "on"].into_iter().position(|name| name == word).map(|place| place as u32)
}
