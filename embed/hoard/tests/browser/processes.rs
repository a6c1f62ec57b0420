//! The processes of one browser: chromium, its children and its crash reporter. Whether they have
//! ended, and ending them.

use std::fs;
use std::path::Path;
use std::process::Command;
use std::thread;
use std::time::{Duration, Instant};

/// How the processes of a browser are known.
pub struct Processes {
    /// The group in which the first one and its children are.
    pub group: u32,
    /// How the names of the browser's own files start. They are among the arguments of a process
    /// that leaves the group.
    pub folder: String,
}

impl Processes {
    /// Waits until none of them runs. False where one still does after that time.
    pub fn end_within(&self, time: Duration) -> bool {
        let end = Instant::now() + time;
        while !self.running().is_empty() {
            if Instant::now() > end {
                return false;
            }
            thread::sleep(Duration::from_millis(10));
        }
        true
    }

    /// Ends all of them at once.
    pub fn kill(&self) {
        let mut shell = Command::new("sh");
        let _ = shell.args(["-c", r#"kill -s KILL "$@""#, "sh"]).args(self.running()).status();
    }

    /// The numbers of those that run.
    fn running(&self) -> Vec<String> {
        let all = fs::read_dir("/proc").into_iter().flatten().flatten();
        let own = all.filter(|process| self.has(&process.path()));
        own.map(|process| process.file_name().to_string_lossy().into_owned()).collect()
    }

    /// Whether a process is one of them and runs. One that has ended is listed until its parent has
    /// taken note.
    fn has(&self, process: &Path) -> bool {
        let stat = contents(&process.join("stat"));
        // The name is in parentheses and may hold any. Then come the state, the parent, the group.
        let Some((_, after_name)) = stat.rsplit_once(')') else { return false };
        let fields: Vec<&str> = after_name.split_whitespace().take(3).collect();
        let [state, _, group] = fields[..] else { return false };
        let is_own = group == self.group.to_string()
            || contents(&process.join("cmdline")).contains(&self.folder);
        is_own && !["Z", "X"].contains(&state)
    }
}

fn contents(file: &Path) -> String {
    String::from_utf8_lossy(&fs::read(file).unwrap_or_default()).into_owned()
}
