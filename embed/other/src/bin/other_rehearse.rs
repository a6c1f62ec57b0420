//! Reads standard input and prints what rehearse makes of it.

use std::io::{self, ErrorKind, Read, Write};

use other::{rehearse, INPUT_LIMIT};

fn main() -> io::Result<()> {
    // One byte above the limit is enough to know that there are too many.
    let mut input = Vec::new();
    io::stdin().lock().take(INPUT_LIMIT as u64 + 1).read_to_end(&mut input)?;
    match io::stdout().lock().write_all(&rehearse(&input)) {
        Err(error) if error.kind() == ErrorKind::BrokenPipe => Ok(()),
        result => result,
    }
}
