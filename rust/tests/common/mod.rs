//! What the tests share: the files of the repository, the archive, folders that go away, and other programs.

// Each test file is a program of its own and uses a part of this.
#![allow(dead_code)]

use std::path::{Path, PathBuf};
use std::process::Command;
use std::{env, fs, process};

/// The repository, which has the crate in its folder `rust`.
pub fn repository() -> PathBuf {
    Path::new(env!("CARGO_MANIFEST_DIR")).parent().unwrap().to_path_buf()
}

/// The text of a file of the repository.
pub fn text(path: &str) -> String {
    let path = repository().join(path);
    fs::read_to_string(&path).unwrap_or_else(|error| panic!("{}: {error}", path.display()))
}

/// The archive that the crate is linked with, as build.rs finds it.
pub fn archive() -> PathBuf {
    let folder = env::var_os("SIBUKYARAN_LIB_DIR").map_or(repository().join("target/staticlib"), PathBuf::from);
    folder.join("libsibukyaran.a")
}

/// A new folder, which goes away with the value.
pub struct Folder(pub PathBuf);

impl Folder {
    /// The name is the test's, as tests run side by side in one process.
    pub fn new(name: &str) -> Folder {
        let path = env::temp_dir().join(format!("sibukyaran-{name}-{}", process::id()));
        fs::create_dir(&path).unwrap_or_else(|error| panic!("{}: {error}", path.display()));
        Folder(path)
    }

    /// A file in it with this text.
    pub fn file(&self, name: &str, text: &str) -> PathBuf {
        let path = self.0.join(name);
        fs::write(&path, text).unwrap();
        path
    }
}

impl Drop for Folder {
    fn drop(&mut self) {
        let _ = fs::remove_dir_all(&self.0);
    }
}

/// Whether a program can be run; where it cannot, what is left out is told.
pub fn at_hand(program: &str) -> bool {
    let there = Command::new(program).arg("--version").output().is_ok_and(|output| output.status.success());
    if !there {
        eprintln!("{program} is not at hand: what needs it is left out");
    }
    there
}

/// What a command prints; it must succeed.
pub fn printed(command: &mut Command) -> String {
    let output = command.output().unwrap_or_else(|error| panic!("{command:?}: {error}"));
    let told = String::from_utf8_lossy(&output.stderr);
    assert!(output.status.success(), "{command:?}: {}\n{told}", output.status);
    String::from_utf8(output.stdout).unwrap()
}
