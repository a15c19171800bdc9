//! Files and pipes. A file is written beside its place and renamed, so that it is either as it was or whole.

use std::collections::BTreeSet;
use std::fs;
use std::io::{self, IsTerminal, Read, Write};
use std::path::{Path, PathBuf};
use std::process;

use sibukyaran::Diagonals;

use crate::failure::Failure;

/// The name of standard input or output.
pub const PIPE: &str = "-";

/// What a file holds.
pub fn read(name: &str) -> Result<Vec<u8>, Failure> {
    let mut bytes = Vec::new();
    match name {
        PIPE => io::stdin().lock().read_to_end(&mut bytes).map(|_| bytes),
        _ => fs::read(name),
    }
    .map_err(|error| Failure::of_file(name, &error))
}

fn read_text(name: &str) -> Result<String, Failure> {
    String::from_utf8(read(name)?).map_err(|_| Failure::Input(format!("{name}: it is no text")))
}

/// The map of a map file.
pub fn read_map(name: &str) -> Result<Diagonals, Failure> {
    Ok(Diagonals::read_map_file(&read(name)?)?)
}

/// A number of a text; a negative one counts modulo 2^64.
pub fn slot_number(word: &str) -> Option<u64> {
    word.parse().ok().or_else(|| word.parse::<i64>().ok().map(|number| number as u64))
}

/// The lines of a text that say something, each with its number: not those that are blank or begin with #.
fn lines(text: &str) -> impl Iterator<Item = (usize, &str)> {
    let numbered = text.lines().enumerate().map(|(at, line)| (at + 1, line.trim()));
    numbered.filter(|(_, line)| !line.is_empty() && !line.starts_with('#'))
}

/// The words of a line, between blanks and commas.
fn words(line: &str) -> impl Iterator<Item = &str> {
    line.split(|c: char| c.is_whitespace() || c == ',').filter(|word| !word.is_empty())
}

/// The numbers of each line that says something.
pub fn read_rows(name: &str) -> Result<Vec<(usize, Vec<u64>)>, Failure> {
    let text = read_text(name)?;
    let row = |(at, line)| {
        let number = |word| {
            slot_number(word)
                .ok_or_else(|| Failure::Input(format!("{name}, line {at}: '{word}' is no number of 64 bits")))
        };
        Ok((at, words(line).map(number).collect::<Result<_, Failure>>()?))
    };
    lines(&text).map(row).collect()
}

/// One number a line.
pub fn read_list(name: &str) -> Result<Vec<u64>, Failure> {
    let one = |(at, row): (usize, Vec<u64>)| match row[..] {
        [number] => Ok(number),
        _ => Err(Failure::Input(format!("{name}, line {at}: it has {} numbers, and one is taken", row.len()))),
    };
    read_rows(name)?.into_iter().map(one).collect()
}

/// A vector of slots: eight bytes each, least first, or as text one number a line.
pub fn read_vector(name: &str, text: bool) -> Result<Vec<u64>, Failure> {
    if text {
        return read_list(name);
    }
    let bytes = read(name)?;
    let (slots, rest) = bytes.as_chunks();
    if !rest.is_empty() {
        let length = bytes.len();
        return Err(Failure::Input(format!(
            "{name}: it has {length} bytes, which is no multiple of 8 (is it a text?)"
        )));
    }
    Ok(slots.iter().map(|slot| u64::from_le_bytes(*slot)).collect())
}

/// The bytes of a vector.
pub fn vector_bytes(vector: &[u64], text: bool) -> Vec<u8> {
    if text { list_bytes(vector) } else { vector.iter().flat_map(|slot| slot.to_le_bytes()).collect() }
}

/// One number a line.
pub fn list_bytes<T: ToString>(list: &[T]) -> Vec<u8> {
    list.iter().map(|number| number.to_string() + "\n").collect::<String>().into_bytes()
}

/// Prints bytes on standard output.
pub fn print(bytes: &[u8]) -> Result<(), Failure> {
    let mut out = io::stdout().lock();
    out.write_all(bytes).and_then(|()| out.flush()).map_err(|error| match error.kind() {
        io::ErrorKind::BrokenPipe => Failure::Closed,
        _ => Failure::of_file("standard output", &error),
    })
}

/// Prints a text on standard output.
pub fn print_text(text: &str) -> Result<(), Failure> {
    print(text.as_bytes())
}

/// Files to write, all of them or none.
#[derive(Default)]
pub struct Outputs {
    all: Vec<(String, Vec<u8>)>,
}

impl Outputs {
    /// A file with these bytes.
    pub fn add(&mut self, name: &str, bytes: Vec<u8>) {
        self.all.push((name.to_string(), bytes));
    }

    /// Whether standard output is one of them, so that nothing else is printed there.
    pub fn has_pipe(&self) -> bool {
        self.all.iter().any(|(name, _)| name == PIPE)
    }

    /// Writes each beside its place, then renames all. Where one cannot be written, none is renamed.
    pub fn write(self) -> Result<(), Failure> {
        let names: BTreeSet<&str> = self.all.iter().map(|(name, _)| &name[..]).collect();
        if names.len() < self.all.len() {
            return Err(Failure::Usage("two outputs have one name".to_string()));
        }
        let mut beside = Beside::default();
        for (name, bytes) in self.all.iter().filter(|(name, _)| name != PIPE) {
            beside.add(name, bytes).map_err(|error| Failure::of_file(name, &error))?;
        }
        beside.rename()?;
        self.all.iter().filter(|(name, _)| name == PIPE).try_for_each(|(_, bytes)| print(bytes))
    }
}

/// Files that wait beside their places; those that are not renamed are removed.
#[derive(Default)]
struct Beside {
    waiting: Vec<(PathBuf, PathBuf)>,
}

impl Beside {
    fn add(&mut self, name: &str, bytes: &[u8]) -> io::Result<()> {
        // A link stays, and what it names is replaced.
        let place = fs::canonicalize(name).unwrap_or_else(|_| PathBuf::from(name));
        let held = fs::metadata(&place).ok();
        if held.as_ref().is_some_and(|held| !held.is_file() && !held.is_dir()) {
            // A device or a named pipe has no place beside it.
            return fs::write(&place, bytes);
        }
        let mut beside = place.clone().into_os_string();
        beside.push(format!(".{}.part", process::id()));
        self.waiting.push((PathBuf::from(&beside), place));
        fs::write(&beside, bytes)?;
        held.map_or(Ok(()), |held| fs::set_permissions(Path::new(&beside), held.permissions()))
    }

    fn rename(mut self) -> Result<(), Failure> {
        while let Some((beside, place)) = self.waiting.first().cloned() {
            fs::rename(&beside, &place).map_err(|error| Failure::of_file(&place.display().to_string(), &error))?;
            self.waiting.remove(0);
        }
        Ok(())
    }
}

impl Drop for Beside {
    fn drop(&mut self) {
        for (beside, _) in &self.waiting {
            // It may not have been made; there is nobody to tell.
            let _ = fs::remove_file(beside);
        }
    }
}

/// Whether bytes that are no text can be written there: to a file, or through a pipe, but not to a terminal.
pub fn takes_bytes(name: &str) -> Result<(), Failure> {
    if name == PIPE && io::stdout().is_terminal() {
        return Err(Failure::Usage("bytes are not shown on a terminal: give -o FILE, or a pipe".to_string()));
    }
    Ok(())
}

/// Writes one file.
pub fn write_one(name: &str, bytes: Vec<u8>) -> Result<(), Failure> {
    let mut outputs = Outputs::default();
    outputs.add(name, bytes);
    outputs.write()
}

/// Writes one file of bytes that are no text.
pub fn write_bytes(name: Option<&str>, bytes: Vec<u8>) -> Result<(), Failure> {
    let name = name.unwrap_or(PIPE);
    takes_bytes(name)?;
    write_one(name, bytes)
}
