//! The process of a browser: chromium with a folder of its own and with the pipe over which it
//! takes messages.

use std::env;
use std::fs;
use std::io::{BufRead, BufReader, Write};
use std::os::unix::process::CommandExt;
use std::path::PathBuf;
use std::process::{Child, ChildStdin, ChildStdout, Command, Stdio};
use std::sync::atomic::{AtomicUsize, Ordering};
use std::sync::mpsc::{channel, Receiver, RecvTimeoutError, Sender};
use std::thread;
use std::time::{Duration, Instant};

use super::processes::Processes;

/// How long chromium may take to close by itself.
const CLOSING: Duration = Duration::from_secs(5);

/// Chromium reads messages on descriptor 3 and writes them on 4, and has the shell's own streams
/// there. What it says to people goes to a file.
const SHELL: &str = r#"exec chromium "$@" 3<&0 4>&1 </dev/null >/dev/null 2>"$0""#;

const FLAGS: &[&str] = &[
    "--headless",
    "--remote-debugging-pipe",
    "--no-startup-window",
    // It may run as root, and with little shared memory.
    "--no-sandbox",
    "--disable-dev-shm-usage",
    // A page looks the same everywhere.
    "--disable-gpu",
    "--force-color-profile=srgb",
    "--hide-scrollbars",
    // There is a mouse, also where the machine has none, and no event is dropped.
    "--blink-settings=primaryHoverType=2,availableHoverTypes=2,\
     primaryPointerType=4,availablePointerTypes=4",
    "--allow-pre-commit-input",
    // A page is drawn at full speed, also while another one is in front.
    "--disable-background-timer-throttling",
    "--disable-backgrounding-occluded-windows",
    "--disable-renderer-backgrounding",
    // There is nothing beside the page. The crash reporter stays: without it the process that makes
    // the requests takes the descriptors of the pipe for its own, and crashes.
    "--no-first-run",
    "--disable-default-apps",
    "--disable-extensions",
    "--mute-audio",
    "--password-store=basic",
    // There is no network: what is asked for all the same, here or by the page, finds no host.
    "--disable-background-networking",
    "--disable-component-update",
    "--disable-domain-reliability",
    "--disable-sync",
    "--no-proxy-server",
    "--host-resolver-rules=MAP * ~NOTFOUND",
];

/// A running chromium.
pub struct Chromium {
    child: Child,
    processes: Processes,
    folder: PathBuf,
    input: ChildStdin,
    messages: Receiver<String>,
}

impl Chromium {
    /// Starts it. Panics where it is missing.
    pub fn start() -> Chromium {
        assert!(is_installed(), "chromium is missing: the tests need Debian's package chromium");
        let folder = fresh_folder();
        let mut child = Command::new("sh")
            .args(["-c", SHELL])
            .arg(folder.join("said"))
            .args(FLAGS)
            .arg(format!("--user-data-dir={}", folder.join("profile").display()))
            .env("HOME", &folder)
            .env_remove("XDG_CONFIG_HOME")
            .env_remove("XDG_CACHE_HOME")
            .stdin(Stdio::piped())
            .stdout(Stdio::piped())
            .process_group(0)
            .spawn()
            .expect("the shell that starts chromium runs");
        let input = child.stdin.take().expect("the input is a pipe");
        let output = child.stdout.take().expect("the output is a pipe");
        let (sender, messages) = channel();
        thread::spawn(move || pass_on(output, &sender));
        let processes = Processes { group: child.id(), folder: format!("{}/", folder.display()) };
        Chromium { child, processes, folder, input, messages }
    }

    /// Sends a message. Where chromium has ended, the wait for the answer tells it.
    pub fn send(&mut self, message: &str) {
        let _ = self.input.write_all(format!("{message}\0").as_bytes());
    }

    /// The next message. Panics where it hasn't come by then, and says what is waited for.
    pub fn receive(&mut self, until: Instant, what: &str) -> String {
        let left = until.saturating_duration_since(Instant::now());
        let problem = match self.messages.recv_timeout(left) {
            Ok(message) if !left.is_zero() => return message,
            Err(RecvTimeoutError::Disconnected) => "chromium did not start or has ended",
            _ => "chromium takes too long",
        };
        panic!("{problem}: this was a wait for {what}; chromium said:\n{}", self.said())
    }

    /// The end of what it has said, without complaints about services that no test needs.
    fn said(&self) -> String {
        let text = fs::read(self.folder.join("said")).unwrap_or_default();
        let text = String::from_utf8_lossy(&text);
        let lines: Vec<&str> = text.lines().filter(|line| !line.contains(":dbus/")).collect();
        lines[lines.len().saturating_sub(20)..].join("\n")
    }

    /// Waits until it has closed, ends what is left of it and removes its folder.
    pub fn end(&mut self) {
        if !self.processes.end_within(CLOSING) {
            self.processes.kill();
            self.processes.end_within(CLOSING);
        }
        // From here on another group of processes may get its number.
        let _ = self.child.wait();
        let _ = fs::remove_dir_all(&self.folder);
    }
}

fn is_installed() -> bool {
    let path = env::var_os("PATH").unwrap_or_default();
    env::split_paths(&path).any(|folder| folder.join("chromium").is_file())
}

/// A new folder. Each browser of this process has another one. It is not in the checkout: chromium
/// makes links there, which rt refuses where a test that was killed has left them.
fn fresh_folder() -> PathBuf {
    static STARTED: AtomicUsize = AtomicUsize::new(0);
    let number = STARTED.fetch_add(1, Ordering::Relaxed);
    let name = format!("hoard-browser-{}-{number}", std::process::id());
    let folder = env::temp_dir().join(name);
    // A process that was ended before it removed its own may have had the same number.
    let _ = fs::remove_dir_all(&folder);
    fs::create_dir_all(&folder).expect("there is room for chromium's folder");
    folder
}

/// Passes messages on as they come, until chromium closes the pipe.
fn pass_on(output: ChildStdout, messages: &Sender<String>) {
    for message in BufReader::new(output).split(0).map_while(Result::ok) {
        if messages.send(String::from_utf8_lossy(&message).into_owned()).is_err() {
            return;
        }
    }
}
