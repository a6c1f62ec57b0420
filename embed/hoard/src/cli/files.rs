//! Files, and standard input and output where they are named `-`.

use std::ffi::OsStr;
use std::fs::{self, File};
use std::io::ErrorKind::NotFound;
use std::io::{self, Read, Write};
use std::path::{Path, PathBuf};

/// The name of a file in messages.
pub fn name(file: &OsStr) -> String {
    if file == "-" {
        "standard input".to_string()
    } else {
        file.to_string_lossy().into_owned()
    }
}

/// The bytes of a file.
///
/// # Errors
///
/// That it can't be read, in a sentence.
pub fn bytes(file: &OsStr) -> Result<Vec<u8>, String> {
    let mut bytes = Vec::new();
    let read = if file == "-" {
        io::stdin().lock().read_to_end(&mut bytes).map(|_| bytes)
    } else {
        fs::read(file)
    };
    read.map_err(|error| format!("{} can't be read: {error}", name(file)))
}

/// The text of a file.
///
/// # Errors
///
/// That it can't be read or is no text, in a sentence.
pub fn text(file: &OsStr) -> Result<String, String> {
    let text = String::from_utf8(bytes(file)?).map_err(|error| {
        let at = error.utf8_error().valid_up_to();
        format!("{} is no text: byte {at} is not UTF-8", name(file))
    })?;
    // Some editors begin a text with this mark.
    Ok(text.trim_start_matches('\u{feff}').to_string())
}

/// Prints on standard output.
///
/// # Errors
///
/// That it can't be written, in a sentence.
pub fn print(bytes: &[u8]) -> Result<(), String> {
    let mut out = io::stdout().lock();
    out.write_all(bytes).and_then(|()| out.flush()).map_err(|error| unwritten(&error))
}

/// Writes a file whole that was made of another, or leaves it as it was.
///
/// # Errors
///
/// That both are the same or that it can't be written, in a sentence.
pub fn write(file: &OsStr, bytes: &[u8], made_of: &OsStr) -> Result<(), String> {
    if file == "-" {
        return print(bytes);
    }
    if made_of != "-" && is_same(file, made_of) {
        return Err(format!("{} would be written over itself", name(made_of)));
    }
    // A link stands for the file to which it leads.
    let path = fs::canonicalize(file).unwrap_or_else(|_| PathBuf::from(file));
    let is_new = fs::symlink_metadata(&path).is_err_and(|error| error.kind() == NotFound);
    // A device is written as it is.
    let written =
        if is_new || path.is_file() { replace(&path, bytes) } else { fs::write(&path, bytes) };
    written.map_err(|error| format!("{} can't be written: {error}", name(file)))
}

/// Whether two names are those of one file.
fn is_same(one: &OsStr, other: &OsStr) -> bool {
    match (fs::canonicalize(one), fs::canonicalize(other)) {
        (Ok(one), Ok(other)) => one == other && one.is_file(),
        _ => false,
    }
}

/// Writes a file beside another, and puts it in its place with its permissions.
fn replace(path: &Path, bytes: &[u8]) -> io::Result<()> {
    let beside = path.with_file_name(format!(".hoard-{}", std::process::id()));
    let mut made = File::create_new(&beside)?;
    let permissions = fs::metadata(path).map(|found| found.permissions());
    let written = made
        .write_all(bytes)
        .and_then(|()| permissions.map_or(Ok(()), |own| fs::set_permissions(&beside, own)))
        .and_then(|()| fs::rename(&beside, path));
    if written.is_err() {
        // What was written of it is of no use.
        let _ = fs::remove_file(&beside);
    }
    written
}

/// That standard output can't be written.
pub fn unwritten(error: &io::Error) -> String {
    format!("standard output can't be written: {error}")
}
