//! The command-line tool of Sibukyaran: maps, plans, keys and keyed runs over the proved library.

#![forbid(unsafe_code)]

mod args;
mod check;
mod date;
mod failure;
mod files;
mod json;
mod map;
mod picture;
mod plan;
mod progress;
mod run;
mod slip;
mod week;

use std::env;
use std::process::ExitCode;

use args::{Args, Command};
use failure::Failure;

/// In the order of a week.
const COMMANDS: [&Command; 14] = [
    &map::TERMS,
    &map::MATRIX,
    &map::BUILD,
    &map::SET,
    &map::SHOW,
    &map::TRANSPOSE,
    &map::SHRINK,
    &plan::WIDTH,
    &plan::PLAN,
    &plan::KEYS,
    &run::RUN,
    &check::CHECK,
    &slip::SLIP,
    &week::WEEK,
];

/// The commands that begin with a word, or all.
fn overview(word: Option<&String>) -> String {
    let mut text = format!("sibukyaran {}: maps, plans, keys and keyed runs, over a proved library\n\n", version());
    let begins = |command: &&&Command| word.is_some_and(|word| command.name.split(' ').next() == Some(word));
    let some: Vec<_> = COMMANDS.iter().filter(begins).collect();
    for command in if some.is_empty() { COMMANDS.iter().collect() } else { some } {
        text += &format!("  {:<14} {}\n", command.name, command.about);
    }
    text + "\n'sibukyaran COMMAND --help' tells more. Exit status: 0 done; 1 refused, or a file cannot be taken, and then\n\
            every file is as it was; 2 bad usage.\n"
}

fn version() -> &'static str {
    env!("CARGO_PKG_VERSION")
}

/// The command that the first words name, and the words behind it.
fn chosen(words: &[String]) -> Option<(&'static Command, &[String])> {
    let named = |command: &&&Command| {
        let mut name = command.name.split(' ');
        words.len() >= name.clone().count() && name.by_ref().zip(words).all(|(part, word)| part == word)
    };
    COMMANDS.iter().find(named).map(|command| (*command, &words[command.name.split(' ').count()..]))
}

fn is_help(word: &String) -> bool {
    word == "--help" || word == "-h"
}

fn help(command: &Command) -> String {
    format!("{}\n\nusage: sibukyaran {} {}\n\n{}\n", command.about, command.name, command.usage, command.help)
}

fn run(words: &[String]) -> Result<(), Failure> {
    match chosen(words) {
        Some((command, rest)) if rest.iter().any(is_help) => files::print_text(&help(command)),
        Some((command, rest)) => (command.run)(&Args::parse(command, rest)?),
        None if words.iter().any(is_help) => files::print_text(&overview(words.first())),
        None if words == ["--version"] => files::print_text(&format!("sibukyaran {}\n", version())),
        None => Err(Failure::Usage(match words.first() {
            Some(word) => format!("there is no command '{word}' like that: see 'sibukyaran --help'"),
            None => overview(None),
        })),
    }
}

fn main() -> ExitCode {
    let words: Vec<String> = env::args().skip(1).collect();
    match run(&words) {
        Ok(()) => ExitCode::SUCCESS,
        Err(failure) => failure.close(),
    }
}
