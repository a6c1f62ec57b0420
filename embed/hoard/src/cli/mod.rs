//! The program: what the command line asks for is done here.
//!
//! - `arguments`: the command line.
//! - `help`: the help texts.
//! - `files`: reading and writing.
//! - `lines`: what `hoard run` prints.
//! - `progress`: how far a long run is.

mod arguments;
mod files;
mod help;
mod lines;
mod progress;

use std::ffi::{OsStr, OsString};
use std::io::{self, BufWriter, IsTerminal, Write};
use std::path::Path;
use std::process::ExitCode;

use crate::bytes::{bytes_of, hexadecimal, of_hexadecimal, scenario_of, NoBytes};
use crate::page;
use crate::run::{Player, Run};
use crate::scenario::{Mistake, Scenario};

use arguments::{task, Convert, Misused, Task};
use lines::Lines;
use progress::Progress;

/// What is counted while a run is played.
const PLAYED: &str = "lines played";

/// Does what the arguments ask for. What is wrong is said on standard error, and the status
/// tells it.
pub fn main(arguments: Vec<OsString>) -> ExitCode {
    let done = match task(arguments) {
        Ok(task) => perform(task),
        Err(Misused { reason, word }) => {
            let word = word.map_or(String::new(), |word| format!("{word} "));
            complain(&format!("{reason}\nTry 'hoard {word}--help'."));
            return ExitCode::from(2);
        }
    };
    match done {
        Ok(()) => ExitCode::SUCCESS,
        Err(message) => {
            complain(&message);
            ExitCode::FAILURE
        }
    }
}

/// Says what is wrong. Where standard error can't be written either, the status still tells it.
fn complain(message: &str) {
    let _ = writeln!(io::stderr(), "hoard: {message}");
}

/// Does a task, or says what is wrong.
fn perform(task: Task) -> Result<(), String> {
    match task {
        Task::Help(text) => files::print(text.as_bytes()),
        Task::Run { file } => run(&file),
        Task::Bytes(convert) => bytes(&convert),
        Task::Words(convert) => words(&convert),
        Task::Show { file, out, svg } => show(&file, &out, svg),
    }
}

/// Plays a scenario and prints it.
fn run(file: &OsStr) -> Result<(), String> {
    let scenario = scenario(file)?;
    let refused = |error| format!("{}: {error}", files::name(file));
    let mut player = Player::open(&scenario).map_err(refused)?;
    let mut progress = Progress::new(io::stdout().is_terminal());
    let mut lines = Lines::new(BufWriter::new(io::stdout().lock()), scenario.sizes);
    let unwritten = |error| files::unwritten(&error);
    lines.room(&scenario).map_err(unwritten)?;
    for (played, &(line, spoken)) in scenario.lines.iter().enumerate() {
        progress.at(PLAYED, played, scenario.lines.len());
        player.play(line, spoken, &mut |moment| lines.moment(&moment)).map_err(unwritten)?;
    }
    let mut servers = 0..scenario.sizes.servers;
    servers.try_for_each(|server| {
        let catalogue = player.catalogue(server).map_err(refused)?;
        lines.catalogue(server, &catalogue).map_err(unwritten)
    })?;
    lines.out.flush().map_err(unwritten)
}

/// Writes the bytes of a scenario.
fn bytes(convert: &Convert) -> Result<(), String> {
    let Convert { file, out, hex } = convert;
    let bytes = bytes_of(&scenario(file)?).map_err(|error| match error {
        NoBytes::Line(mistake) => mistaken(file, &mistake),
        other => format!("{}: {other}", files::name(file)),
    })?;
    if *hex {
        files::write(out, hexadecimal(&bytes).as_bytes(), file)
    } else {
        files::write(out, &bytes, file)
    }
}

/// Writes bytes as a scenario.
fn words(convert: &Convert) -> Result<(), String> {
    let Convert { file, out, hex } = convert;
    let bytes = if *hex {
        of_hexadecimal(&files::text(file)?).map_err(|mistake| mistaken(file, &mistake))?
    } else {
        files::bytes(file)?
    };
    let scenario = scenario_of(&bytes).map_err(|error| {
        let text = std::str::from_utf8(&bytes).ok().filter(|_| !hex);
        let digits =
            text.is_some_and(|text| of_hexadecimal(text).is_ok_and(|bytes| !bytes.is_empty()));
        let hint = if digits { "; --hex reads hexadecimal digits" } else { "" };
        format!("{}: {error}{hint}", files::name(file))
    })?;
    files::write(out, scenario.to_string().as_bytes(), file)
}

/// Draws a scenario.
fn show(file: &OsStr, out: &OsStr, svg: bool) -> Result<(), String> {
    let scenario = scenario(file)?;
    let mut progress = Progress::new(false);
    let run = Run::of(&scenario, |played| progress.at(PLAYED, played, scenario.lines.len()))
        .map_err(|error| format!("{}: {error}", files::name(file)))?;
    let drawing = |drawn, total| progress.at("calls drawn", drawn, total);
    let drawn =
        if svg { page::picture(&run, drawing) } else { page::page(&run, &title(file), drawing) };
    drop(progress);
    files::write(out, drawn.as_bytes(), file)?;
    if out != "-" {
        let written = format!("{}; {} is written\n", run.summary(), files::name(out));
        files::print(written.as_bytes())?;
    }
    Ok(())
}

/// The title of a page: the file's name without its folder.
fn title(file: &OsStr) -> String {
    let last = Path::new(file).file_name().filter(|_| file != "-");
    last.map_or_else(|| files::name(file), |last| last.to_string_lossy().into_owned())
}

/// Reads a scenario.
fn scenario(file: &OsStr) -> Result<Scenario, String> {
    Scenario::read(&files::text(file)?).map_err(|mistake| mistaken(file, &mistake))
}

/// A mistake with the file in which it is.
fn mistaken(file: &OsStr, mistake: &Mistake) -> String {
    format!("{}:{mistake}", files::name(file))
}
