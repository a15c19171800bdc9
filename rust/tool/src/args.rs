//! The words of a command line.

use std::str::FromStr;

use crate::failure::Failure;
use crate::files::PIPE;

/// What a command takes and what it does.
pub struct Command {
    /// Its words, as `map terms`.
    pub name: &'static str,
    /// What it does, in a line.
    pub about: &'static str,
    /// Its arguments as one writes them.
    pub usage: &'static str,
    /// What there is to say of them.
    pub help: &'static str,
    /// The options that have a value.
    pub options: &'static [&'static str],
    /// The options that have none.
    pub flags: &'static [&'static str],
    /// The fewest and the most other words.
    pub words: (usize, usize),
    /// Does it.
    pub run: fn(&Args) -> Result<(), Failure>,
}

/// The options that name a file to read; the words that are no options name one too, or are no `-`.
const READ: [&str; 6] = ["--keys", "--matrices", "--terms", "--values", "--input", "--answer"];

/// The words after a command's name.
#[derive(Debug, Default)]
pub struct Args {
    words: Vec<String>,
    options: Vec<(String, String)>,
    flags: Vec<String>,
}

/// Whether a word is an option: `-` alone is a file, and `-4` a number.
fn is_option(word: &str) -> bool {
    word.len() > 1 && word.starts_with('-') && !word[1..].starts_with(|c: char| c.is_ascii_digit())
}

impl Args {
    /// The words that a command takes, or what is wrong with them.
    pub fn parse(command: &Command, given: &[String]) -> Result<Args, Failure> {
        let usage =
            |text: String| Failure::Usage(format!("{text}\nusage: sibukyaran {} {}", command.name, command.usage));
        let mut args = Args::default();
        let mut rest = given.iter();
        while let Some(word) = rest.next() {
            if !is_option(word) {
                args.words.push(word.clone());
                continue;
            }
            let (name, joined) = word.split_once('=').map_or((&word[..], None), |(name, value)| (name, Some(value)));
            if command.flags.contains(&name) && joined.is_none() {
                args.flags.push(name.to_string());
            } else if command.options.contains(&name) {
                let value = joined.map(str::to_string).or_else(|| rest.next().cloned());
                let value = value.ok_or_else(|| usage(format!("{name} has no value")))?;
                if args.option(name).is_some() {
                    return Err(usage(format!("{name} is given twice")));
                }
                args.options.push((name.to_string(), value));
            } else {
                return Err(usage(format!("there is no option {word}")));
            }
        }
        let read = args.options.iter().filter(|(name, _)| READ.contains(&&name[..])).map(|(_, value)| value);
        if args.words.iter().chain(read).filter(|name| *name == PIPE).count() > 1 {
            return Err(usage("one of the files can be a pipe".to_string()));
        }
        let (fewest, most) = command.words;
        match args.words.len() {
            n if n < fewest => Err(usage("an argument is missing".to_string())),
            n if n > most => Err(usage(format!("'{}' is one argument too many", args.words[most]))),
            _ => Ok(args),
        }
    }

    /// Word `at`, which the command has made sure of or does not need.
    pub fn word(&self, at: usize) -> Option<&str> {
        self.words.get(at).map(String::as_str)
    }

    /// The value of an option.
    pub fn option(&self, name: &str) -> Option<&str> {
        self.options.iter().find(|(given, _)| given == name).map(|(_, value)| &value[..])
    }

    /// The same where the command cannot do without it.
    pub fn needed(&self, name: &str) -> Result<&str, Failure> {
        self.option(name).ok_or_else(|| Failure::Usage(format!("{name} is missing")))
    }

    /// Whether a flag is given.
    pub fn has(&self, name: &str) -> bool {
        self.flags.iter().any(|given| given == name)
    }

    /// The number of an option.
    pub fn number<T: FromStr>(&self, name: &str) -> Result<Option<T>, Failure> {
        self.option(name).map(|value| number(name, value)).transpose()
    }

    /// The same where the command cannot do without it.
    pub fn needed_number<T: FromStr>(&self, name: &str) -> Result<T, Failure> {
        number(name, self.needed(name)?)
    }
}

/// The number that a word is.
pub fn number<T: FromStr>(what: &str, word: &str) -> Result<T, Failure> {
    word.parse().map_err(|_| Failure::Usage(format!("{what}: '{word}' is no number that it takes")))
}
