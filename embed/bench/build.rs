//! Tells the program which versions it is built by.

use std::path::Path;
use std::process::Command;

fn main() {
    println!("cargo:rerun-if-changed=build.rs");
    // When these change, the proved libraries are built anew.
    library::watch(Path::new("../..")).expect("the folder crates can be read");
    let rustc = std::env::var("RUSTC").unwrap_or_else(|_| String::from("rustc"));
    println!("cargo:rustc-env=RUSTC_VERSION={}", said(&rustc, "--version"));
    println!("cargo:rustc-env=RT_VERSION={}", said("rt", "version"));
}

/// The first line that a command prints, `unknown` where there is none.
fn said(command: &str, word: &str) -> String {
    let Ok(output) = Command::new(command).arg(word).output() else {
        return String::from("unknown");
    };
    let text = String::from_utf8_lossy(&output.stdout);
    let line = text.lines().next().filter(|_| output.status.success());
    line.unwrap_or("unknown").trim().to_string()
}
