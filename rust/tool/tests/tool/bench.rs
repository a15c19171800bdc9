//! A folder with files, and the tool run in it.

use std::collections::BTreeMap;
use std::fs;
use std::io::Write;
use std::path::PathBuf;
use std::process::{Command, Stdio};

/// What the tool said.
#[derive(Debug)]
pub struct Told {
    pub status: Option<i32>,
    pub out: Vec<u8>,
    pub err: String,
}

impl Told {
    pub fn text(&self) -> &str {
        std::str::from_utf8(&self.out).expect("the output is a text")
    }
}

/// A folder of its own for each test, removed afterwards.
pub struct Bench {
    folder: PathBuf,
}

impl Bench {
    pub fn new(name: &str) -> Bench {
        let folder = std::env::temp_dir().join(format!("sibukyaran-{name}-{}", std::process::id()));
        let _ = fs::remove_dir_all(&folder);
        fs::create_dir_all(&folder).unwrap();
        Bench { folder }
    }

    pub fn path(&self, file: &str) -> PathBuf {
        self.folder.join(file)
    }

    pub fn write(&self, file: &str, bytes: impl AsRef<[u8]>) {
        fs::write(self.path(file), bytes).unwrap();
    }

    pub fn read(&self, file: &str) -> Vec<u8> {
        fs::read(self.path(file)).unwrap_or_else(|error| panic!("{file}: {error}"))
    }

    pub fn text(&self, file: &str) -> String {
        String::from_utf8(self.read(file)).unwrap()
    }

    /// Every file with its bytes.
    pub fn files(&self) -> BTreeMap<String, Vec<u8>> {
        let entries = fs::read_dir(&self.folder).unwrap().map(|entry| entry.unwrap());
        let name = |entry: &fs::DirEntry| entry.file_name().into_string().unwrap();
        entries
            .filter(|entry| entry.path().is_file())
            .map(|entry| (name(&entry), fs::read(entry.path()).unwrap()))
            .collect()
    }

    /// The tool with words between blanks, and what it reads from a pipe.
    pub fn piped(&self, words: &str, input: &[u8]) -> Told {
        let mut child = Command::new(env!("CARGO_BIN_EXE_sibukyaran"))
            .args(words.split_whitespace())
            .current_dir(&self.folder)
            .stdin(Stdio::piped())
            .stdout(Stdio::piped())
            .stderr(Stdio::piped())
            .spawn()
            .unwrap();
        let mut pipe = child.stdin.take().unwrap();
        // A command that reads nothing may have ended before all is written.
        let _ = pipe.write_all(input);
        drop(pipe);
        let output = child.wait_with_output().unwrap();
        Told { status: output.status.code(), out: output.stdout, err: String::from_utf8(output.stderr).unwrap() }
    }

    pub fn run(&self, words: &str) -> Told {
        self.piped(words, b"")
    }

    /// A command that does what it should and says nothing on standard error.
    pub fn does(&self, words: &str) -> Told {
        let told = self.run(words);
        assert_eq!((told.status, &told.err[..]), (Some(0), ""), "{words}");
        told
    }

    /// A command that ends with a status and a message, prints nothing and leaves every file as it was.
    fn fails(&self, words: &str, status: i32, message: &str) -> Told {
        let before = self.files();
        let told = self.run(words);
        assert_eq!(told.status, Some(status), "{words}: {told:?}");
        assert!(told.err.starts_with(&format!("sibukyaran: {message}")), "{words}: {}", told.err);
        assert!(told.out.is_empty(), "{words}: {told:?}");
        assert!(self.files() == before, "{words}: a file has changed");
        told
    }

    /// Refused with a number and a sentence.
    pub fn refused(&self, words: &str, number: u32, sentence: &str) {
        let told = self.fails(words, 1, &format!("refused with {number}: "));
        assert_eq!(told.err, format!("sibukyaran: refused with {number}: {sentence}\n"), "{words}");
    }

    /// A file that cannot be taken.
    pub fn not_taken(&self, words: &str, message: &str) {
        self.fails(words, 1, message);
    }

    /// Bad usage.
    pub fn misused(&self, words: &str, message: &str) {
        self.fails(words, 2, message);
    }
}

impl Drop for Bench {
    fn drop(&mut self) {
        let _ = fs::remove_dir_all(&self.folder);
    }
}

/// The bytes of a vector.
pub fn vector(slots: &[u64]) -> Vec<u8> {
    slots.iter().flat_map(|slot| slot.to_le_bytes()).collect()
}
