//! What the command line asks for.

use std::ffi::{OsStr, OsString};

use super::help;

/// A file, or standard input or output where it is `-`.
pub type File = OsString;

/// What is to be done.
#[derive(Clone, Debug, PartialEq, Eq)]
pub enum Task {
    /// Prints a help text.
    Help(String),
    /// Plays a scenario and prints it.
    Run {
        /// The scenario.
        file: File,
    },
    /// Writes the bytes of a scenario.
    Bytes(Convert),
    /// Writes the scenario of bytes.
    Words(Convert),
    /// Draws a scenario.
    Show {
        /// The scenario.
        file: File,
        /// Where the page is written.
        out: File,
        /// Whether the picture alone is written.
        svg: bool,
    },
}

/// What is written in another form.
#[derive(Clone, Debug, PartialEq, Eq)]
pub struct Convert {
    /// Where it is.
    pub file: File,
    /// Where it is written.
    pub out: File,
    /// Whether the bytes are a text of hexadecimal digits.
    pub hex: bool,
}

/// Why a command line is none, and what to read about it.
#[derive(Clone, Debug, PartialEq, Eq)]
pub struct Misused {
    /// What is wrong.
    pub reason: String,
    /// The word whose help text says more, none for that of the program.
    pub word: Option<&'static str>,
}

/// The options and the files behind the first word.
#[derive(Default)]
struct Given {
    files: Vec<File>,
    out: Option<File>,
    flag: bool,
    help: bool,
}

/// What the arguments ask for.
///
/// # Errors
///
/// What is wrong with them.
pub fn task(arguments: Vec<OsString>) -> Result<Task, Misused> {
    let mut arguments = arguments.into_iter();
    let first = arguments.next().map(|first| first.to_string_lossy().into_owned());
    let first = first.ok_or_else(|| misused(None, format!("a word is missing: {}", words())))?;
    match first.as_str() {
        "-h" | "--help" => return alone(arguments, help::program()),
        "--version" => return alone(arguments, help::version()),
        "help" => return help_of(arguments),
        _ => {}
    }
    let Some((name, text)) = help::of(&first) else {
        let what = if first.starts_with('-') { "option" } else { "word" };
        return Err(misused(None, format!("unknown {what} '{first}'")));
    };
    let given = given(arguments, name)?;
    if given.help {
        return Ok(Task::Help(text));
    }
    made(name, given)
}

/// The words that do something.
fn words() -> String {
    help::COMMANDS.map(|(name, _)| name).join(", ")
}

/// A text that is asked for by a word alone.
fn alone(mut arguments: impl Iterator<Item = OsString>, text: String) -> Result<Task, Misused> {
    match arguments.next() {
        Some(more) => Err(misused(None, format!("a word too many: '{}'", more.to_string_lossy()))),
        None => Ok(Task::Help(text)),
    }
}

/// The help text of the program, or of the word that comes next.
fn help_of(mut arguments: impl Iterator<Item = OsString>) -> Result<Task, Misused> {
    let Some(word) = arguments.next() else { return Ok(Task::Help(help::program())) };
    let word = word.to_string_lossy();
    let (_, text) =
        help::of(&word).ok_or_else(|| misused(None, format!("unknown word '{word}'")))?;
    alone(arguments, text)
}

/// Reads the options and the files of a word.
fn given(
    mut arguments: impl Iterator<Item = OsString>,
    name: &'static str,
) -> Result<Given, Misused> {
    // A word of a scenario has a help text and nothing else.
    let (flag, has_out) = match name {
        "show" => (Some("--svg"), true),
        "bytes" | "words" => (Some("--hex"), true),
        _ => (None, false),
    };
    let mut given = Given::default();
    while let Some(argument) = arguments.next() {
        match argument.to_str() {
            Some("-h" | "--help") => given.help = true,
            Some("-o") if has_out => {
                let file = arguments.next().filter(|file| is_file(file));
                let file = file.ok_or_else(|| misused(Some(name), "-o names no file"))?;
                if given.out.replace(file).is_some() {
                    return Err(misused(Some(name), "-o stands there twice"));
                }
            }
            option if option.is_some() && option == flag => given.flag = true,
            Some(option) if !is_file(&argument) => {
                return Err(misused(Some(name), format!("unknown option '{option}'")));
            }
            _ => given.files.push(argument),
        }
    }
    Ok(given)
}

/// Whether an argument is a file and no option.
fn is_file(argument: &OsStr) -> bool {
    argument == "-" || !argument.as_encoded_bytes().starts_with(b"-")
}

/// The task of a word with what is given.
fn made(name: &'static str, given: Given) -> Result<Task, Misused> {
    let Given { files, out, flag, .. } = given;
    if help::COMMANDS.iter().all(|(own, _)| *own != name) {
        let reason = format!("'{name}' is a word of a scenario; 'hoard run FILE' plays one");
        return Err(misused(Some(name), reason));
    }
    let [file] = <[File; 1]>::try_from(files).map_err(|files| {
        let reason = match files.get(1) {
            Some(second) => format!("a file too many: '{}'", second.to_string_lossy()),
            None => "a file is missing".to_string(),
        };
        misused(Some(name), reason)
    })?;
    let out = out.unwrap_or_else(|| "-".into());
    Ok(match name {
        "run" => Task::Run { file },
        "show" => Task::Show { file, out, svg: flag },
        "bytes" => Task::Bytes(Convert { file, out, hex: flag }),
        _ => Task::Words(Convert { file, out, hex: flag }),
    })
}

/// That the command line is none.
fn misused(word: Option<&'static str>, reason: impl Into<String>) -> Misused {
    Misused { reason: reason.into(), word }
}
