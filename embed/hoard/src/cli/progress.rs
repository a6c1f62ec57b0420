//! How far a long run is, on the terminal.

use std::io::{self, IsTerminal, Write};
use std::time::{Duration, Instant};

/// How often the line is written anew, and how long a run takes before it is.
const PAUSE: Duration = Duration::from_millis(200);

/// A line on standard error that is written anew, where that is a terminal.
pub struct Progress {
    shown: bool,
    /// Whether the line stands there.
    stands: bool,
    next: Instant,
}

impl Progress {
    /// For a run. Nothing is shown where its lines themselves are.
    pub fn new(lines_are_shown: bool) -> Progress {
        let shown = io::stderr().is_terminal() && !lines_are_shown;
        Progress { shown, stands: false, next: Instant::now() + PAUSE }
    }

    /// So many lines of a total are played, or calls drawn.
    pub fn at(&mut self, what: &str, done: usize, total: usize) {
        let now = Instant::now();
        if self.shown && now >= self.next {
            let share = 100 * done / total.max(1);
            show(&format!("\r\x1b[Khoard: {done} of {total} {what} ({share} %)"));
            self.stands = true;
            self.next = now + PAUSE;
        }
    }
}

impl Drop for Progress {
    /// Takes the line away.
    fn drop(&mut self) {
        if self.stands {
            show("\r\x1b[K");
        }
    }
}

/// Writes to standard error. What can't be shown is no reason to stop.
fn show(text: &str) {
    let mut err = io::stderr();
    let _ = err.write_all(text.as_bytes()).and_then(|()| err.flush());
}
