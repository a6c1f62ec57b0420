//! Makes inputs for rehearse from a seed, counts what they reach, and compares
//! a program with this implementation on them.

use std::fs::{self, File};
use std::path::{Path, PathBuf};
use std::process::{Command, ExitCode, Stdio};

use other::generator::{make_input, replay, Halves, Learning, Tally};
use other::{rehearse, room_length};

const USAGE: &str = "\
usage:
  runs make SEED COUNT DIR [MOST]  write COUNT inputs, of MOST records at most, as DIR/NUMBER.run
  runs answers DIR                 write what rehearse prints for each, as DIR/NUMBER.out
  runs stats DIR                   count the answers, the steps that half of the drives
                                   decide, and what is told and learned of settled commands;
                                   fail if one of these never occurs
  runs compare DIR PROGRAM         run PROGRAM on each; fail if an output differs";

fn main() -> ExitCode {
    let words: Vec<String> = std::env::args().skip(1).collect();
    let words: Vec<&str> = words.iter().map(String::as_str).collect();
    let result = match words[..] {
        ["make", seed, count, dir] => make(seed, count, dir, "4294967295"),
        ["make", seed, count, dir, most] => make(seed, count, dir, most),
        ["answers", dir] => answers(dir),
        ["stats", dir] => stats(dir),
        ["compare", dir, program] => compare(dir, program),
        _ => Err(USAGE.to_string()),
    };
    match result {
        Ok(text) => {
            println!("{text}");
            ExitCode::SUCCESS
        }
        Err(text) => {
            eprintln!("{text}");
            ExitCode::FAILURE
        }
    }
}

/// The text to print: of success, or of failure.
type Outcome = Result<String, String>;

fn make(seed: &str, count: &str, dir: &str, most: &str) -> Outcome {
    let seed: u64 = parse(seed)?;
    let count: u32 = parse(count)?;
    let most: u32 = parse(most)?;
    fs::create_dir_all(dir).map_err(|error| format!("{dir}: {error}"))?;
    let mut bytes = 0;
    for index in 0..count {
        let input = make_input(seed, index, most);
        bytes += input.len();
        write(&Path::new(dir).join(format!("{index:05}.run")), &input)?;
    }
    Ok(format!("made {count} inputs, {bytes} bytes"))
}

fn answers(dir: &str) -> Outcome {
    let inputs = inputs(dir)?;
    for path in &inputs {
        write(&path.with_extension("out"), &rehearse(&read(path)?))?;
    }
    Ok(format!("wrote {} outputs", inputs.len()))
}

fn stats(dir: &str) -> Outcome {
    let mut tally = Tally::default();
    let mut halves = Halves::default();
    let mut learning = Learning::default();
    let mut sizes = Vec::new();
    let mut longest = 0;
    for path in inputs(dir)? {
        let input = read(&path)?;
        tally.count(&rehearse(&input));
        replay(&input, |taken| {
            halves.count(&taken);
            learning.count(&taken);
        });
        longest = longest.max(input.len());
        if let &[servers, drives, slots, ..] = &input[..] {
            if room_length(servers.into(), drives.into(), slots.into()) != 0 {
                sizes.push([servers, drives, slots]);
            }
        }
    }
    sizes.sort_unstable();
    sizes.dedup();
    let report = tally.report() + &halves.report() + &learning.report();
    let (missing, unexpected) = (tally.missing(), tally.unexpected());
    let text = format!("{report}room sizes {}, longest input {longest} bytes", sizes.len());
    if halves.least() == 0 {
        return Err(format!("{text}\nhalf of the drives decides too few steps"));
    }
    if learning.least() == 0 {
        return Err(format!("{text}\ntoo little is told and learned"));
    }
    if missing.is_empty() && unexpected.is_empty() {
        return Ok(text);
    }
    Err(format!("{text}\nnever answered: {missing:?}\nnot to be answered: {unexpected:?}"))
}

fn compare(dir: &str, program: &str) -> Outcome {
    let inputs = inputs(dir)?;
    let mut first = None;
    let mut differ = 0;
    for path in &inputs {
        let expected = rehearse(&read(path)?);
        let found = output_of(program, path)?;
        if found != expected {
            differ += 1;
            first.get_or_insert_with(|| difference(path, &expected, &found));
        }
    }
    let count = format!("compared {} inputs, {differ} differ", inputs.len());
    match first {
        None if inputs.is_empty() => Err(format!("{dir}: no input")),
        None => Ok(count),
        Some(first) => Err(format!("{first}\n{count}")),
    }
}

/// What `program` prints where its standard input is the file at `path`.
fn output_of(program: &str, path: &Path) -> Result<Vec<u8>, String> {
    let input = File::open(path).map_err(|error| named(path, &error))?;
    let mut command = Command::new(program);
    command.stdin(input).stderr(Stdio::inherit());
    let output = command.output().map_err(|error| format!("{program}: {error}"))?;
    if !output.status.success() {
        return Err(format!("{}: {program} ended with {}", path.display(), output.status));
    }
    Ok(output.stdout)
}

/// The first line in which two outputs differ, and the place of the byte.
fn difference(path: &Path, expected: &[u8], found: &[u8]) -> String {
    let same = expected.iter().zip(found).take_while(|(one, other)| one == other).count();
    let begin = expected[..same].iter().rposition(|&byte| byte == b'\n').map_or(0, |end| end + 1);
    let number = expected[..same].iter().filter(|&&byte| byte == b'\n').count() + 1;
    let line = |bytes: &[u8]| {
        let rest = &bytes[begin..];
        let end = rest.iter().position(|&byte| byte == b'\n').map_or(rest.len(), |end| end + 1);
        String::from_utf8_lossy(&rest[..end]).into_owned()
    };
    format!(
        "{}: byte {same}, line {number}: expected {:?}, found {:?}",
        path.display(),
        line(expected),
        line(found)
    )
}

/// The inputs of a directory, by name.
fn inputs(dir: &str) -> Result<Vec<PathBuf>, String> {
    let entries = fs::read_dir(dir).map_err(|error| format!("{dir}: {error}"))?;
    let mut paths = Vec::new();
    for entry in entries {
        let path = entry.map_err(|error| format!("{dir}: {error}"))?.path();
        if path.extension().is_some_and(|extension| extension == "run") {
            paths.push(path);
        }
    }
    paths.sort();
    Ok(paths)
}

fn parse<T: std::str::FromStr>(word: &str) -> Result<T, String> {
    word.parse().map_err(|_| format!("{word}: not a number that fits\n{USAGE}"))
}

fn read(path: &Path) -> Result<Vec<u8>, String> {
    fs::read(path).map_err(|error| named(path, &error))
}

fn write(path: &Path, bytes: &[u8]) -> Result<(), String> {
    fs::write(path, bytes).map_err(|error| named(path, &error))
}

fn named(path: &Path, error: &std::io::Error) -> String {
    format!("{}: {error}", path.display())
}
