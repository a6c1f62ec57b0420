//! A folder of files for a test.

use std::fs;
use std::path::PathBuf;

/// A folder that a test has for itself.
pub struct Folder(PathBuf);

impl Folder {
    /// The empty folder of this name. Two tests don't have the same.
    pub fn new(name: &str) -> Folder {
        let path = PathBuf::from(env!("CARGO_TARGET_TMPDIR")).join("hoard").join(name);
        // It is there where the test ran before.
        let _ = fs::remove_dir_all(&path);
        fs::create_dir_all(&path).expect("a folder is made");
        Folder(path)
    }

    /// The path of a file in it.
    pub fn file(&self, name: &str) -> String {
        self.0.join(name).to_str().expect("the path is text").to_string()
    }

    /// Writes a file, and answers its path.
    pub fn with(&self, name: &str, bytes: impl AsRef<[u8]>) -> String {
        let file = self.file(name);
        fs::write(&file, bytes).expect("a file is written");
        file
    }

    /// What a file holds, none where it is not there.
    pub fn held(&self, name: &str) -> Option<Vec<u8>> {
        fs::read(self.0.join(name)).ok()
    }
}
