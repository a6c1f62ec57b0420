//! For the build scripts of the packages that link a proved library: finds the library,
//! or has it built in this repository, and links it.
//!
//! ```no_run
//! use library::Library;
//!
//! Library { package: "register", name: "register_c", variable: "REGISTER_LIB_DIR" }.link();
//! ```

use std::env;
use std::path::{Path, PathBuf};
use std::process::{exit, Command};

/// A proved library, as the package that links it names it.
pub struct Library {
    /// The package; its name begins each message.
    pub package: &'static str,
    /// The crate that is the library, below `crates`.
    pub name: &'static str,
    /// The variable that names a folder with the library.
    pub variable: &'static str,
}

impl Library {
    /// Links the library: the one in the folder that the variable names, or else the one
    /// that `rt lib` builds. Ends the build with a message where there is none.
    pub fn link(&self) {
        println!("cargo:rerun-if-changed=build.rs");
        println!("cargo:rerun-if-env-changed={}", self.variable);
        let target = env::var("TARGET").unwrap_or_default();
        if !(target.starts_with("x86_64-") && target.contains("linux")) {
            self.stop(&format!("the library is for x86-64 Linux, and the target is {target}"));
        }
        let archive = match env::var_os(self.variable) {
            Some(folder) => self.given(Path::new(&folder)),
            None => self.built(&self.root()),
        };
        // A copy, since the folder that it comes from may be removed.
        let folder = PathBuf::from(env::var("OUT_DIR").unwrap_or_default());
        if let Err(error) = std::fs::copy(&archive, folder.join(self.archive())) {
            self.stop(&format!("{} could not be copied: {error}", archive.display()));
        }
        println!("cargo:rustc-link-search=native={}", folder.display());
        println!("cargo:rustc-link-lib=static={}", self.name);
    }

    /// The library's file.
    fn archive(&self) -> String {
        format!("lib{}.a", self.name)
    }

    /// The library of a folder that the user names.
    fn given(&self, folder: &Path) -> PathBuf {
        let archive = folder.join(self.archive());
        println!("cargo:rerun-if-changed={}", archive.display());
        if !archive.is_file() {
            let (variable, file) = (self.variable, self.archive());
            self.stop(&format!("{variable} names a folder without {file}: {}", folder.display()));
        }
        archive
    }

    /// The folder that holds crates.txt: two above the package.
    fn root(&self) -> PathBuf {
        let package = PathBuf::from(env::var("CARGO_MANIFEST_DIR").unwrap_or_default());
        match package.ancestors().nth(2) {
            Some(root) if root.join("crates.txt").is_file() => root.to_path_buf(),
            _ => self.stop(&format!(
                "there is no crates.txt two folders above this package: build it in its repository, or name the folder of {} in {}",
                self.archive(), self.variable
            )),
        }
    }

    /// Proves the library and writes it. `rt` does nothing twice.
    fn built(&self, root: &Path) -> PathBuf {
        if let Err(error) = watch(root) {
            self.stop(&format!("the folder crates could not be read: {error}"));
        }
        let folder = root.join("crates").join(self.name);
        let made = match Command::new("rt").arg("lib").current_dir(&folder).output() {
            Ok(made) => made,
            Err(error) => self.stop(&format!(
                "the command `rt` of the Rattle toolchain could not be run ({error}): install the toolchain and put `rt` on the PATH, or name the folder of {} in {}",
                self.archive(), self.variable
            )),
        };
        if !made.status.success() {
            eprintln!("{}", String::from_utf8_lossy(&made.stdout));
            eprintln!("{}", String::from_utf8_lossy(&made.stderr));
            self.stop(&format!("`rt lib` failed in crates/{}: its output stands above", self.name));
        }
        let archive = folder.join("out").join(self.archive());
        if !archive.is_file() {
            self.stop(&format!("`rt lib` wrote no {}", archive.display()));
        }
        archive
    }

    /// Ends the build with a message.
    fn stop(&self, message: &str) -> ! {
        eprintln!("{}: {message}", self.package);
        exit(1)
    }
}

/// Has the build script run again when a file of crates.txt or of the crates changes. What
/// `rt` itself writes, in the folder `out` of each crate, is not among them.
///
/// # Errors
///
/// Where the folder `crates` cannot be read.
pub fn watch(root: &Path) -> std::io::Result<()> {
    println!("cargo:rerun-if-changed={}", root.join("crates.txt").display());
    for folder in std::fs::read_dir(root.join("crates"))?.flatten() {
        for part in ["src", "specs", "proofs"] {
            let part = folder.path().join(part);
            if part.is_dir() {
                println!("cargo:rerun-if-changed={}", part.display());
            }
        }
    }
    Ok(())
}
