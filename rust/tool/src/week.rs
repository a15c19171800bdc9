//! `week`: one map from Monday to Friday, by the commands of this tool.

use std::env;
use std::fs;
use std::io;
use std::path::PathBuf;
use std::process::{Command as Process, Output};

use crate::args::{Args, Command};
use crate::date::date;
use crate::failure::Failure;
use crate::files::print_text;

pub const WEEK: Command = Command {
    name: "week",
    about: "follows one map from Monday to Friday",
    usage: "[--date D] [--folder FOLDER]",
    help: "Prints each day's commands and what they print. Files are written to FOLDER (week, without it); those of an\n\
           earlier week are replaced.\n\n\
           --date D  Friday's date, as 2026-11-20; without it today's",
    options: &["--date", "--folder"],
    flags: &[],
    words: (0, 0),
    run: week,
};

/// The example's files (week/README.md).
const TERMS: &str = include_str!("../week/average.terms");
const BEATS: &str = include_str!("../week/beats.txt");

/// What the week writes.
const FILES: [&str; 8] = [
    "average.terms",
    "beats.txt",
    "average.map",
    "plan.svg",
    "keys.txt",
    "keys-but-one.txt",
    "answer.txt",
    "second.txt",
];

/// The folder of a week, and the tool.
struct Week {
    tool: PathBuf,
    folder: PathBuf,
}

impl Week {
    fn open(folder: &str) -> Result<Week, Failure> {
        let folder = PathBuf::from(folder);
        let tool = env::current_exe().map_err(|error| Failure::of_file("this program", &error))?;
        let week = Week { tool, folder };
        let name = week.folder.display().to_string();
        fs::create_dir_all(&week.folder).map_err(|error| Failure::of_file(&name, &error))?;
        FILES.iter().try_for_each(|file| week.remove(file))?;
        week.write("average.terms", TERMS)?;
        week.write("beats.txt", BEATS)?;
        Ok(week)
    }

    fn path(&self, file: &str) -> PathBuf {
        self.folder.join(file)
    }

    fn remove(&self, file: &str) -> Result<(), Failure> {
        match fs::remove_file(self.path(file)) {
            Err(error) if error.kind() != io::ErrorKind::NotFound => Err(Failure::of_file(file, &error)),
            _ => Ok(()),
        }
    }

    fn write(&self, file: &str, text: &str) -> Result<(), Failure> {
        fs::write(self.path(file), text).map_err(|error| Failure::of_file(file, &error))
    }

    fn read(&self, file: &str) -> Result<String, Failure> {
        fs::read_to_string(self.path(file)).map_err(|error| Failure::of_file(file, &error))
    }

    /// Prints a command of the tool, runs it in the folder and prints what it says.
    fn say(&self, words: &str) -> Result<Output, Failure> {
        print_text(&format!("\n$ sibukyaran {words}\n"))?;
        let run = Process::new(&self.tool).args(words.split(' ')).current_dir(&self.folder).output();
        let output = run.map_err(|error| Failure::of_file(&self.tool.display().to_string(), &error))?;
        print_text(&String::from_utf8_lossy(&output.stdout))?;
        print_text(&String::from_utf8_lossy(&output.stderr))?;
        Ok(output)
    }

    /// A command that must succeed.
    fn does(&self, words: &str) -> Result<(), Failure> {
        let output = self.say(words)?;
        if output.status.success() {
            Ok(())
        } else {
            Err(Failure::Input(format!("the week ends here: {}", output.status)))
        }
    }

    /// Thursday's second run: refused with 11, with nothing written.
    fn is_refused(&self, words: &str, unwritten: &str) -> Result<(), Failure> {
        let output = self.say(words)?;
        let refused = String::from_utf8_lossy(&output.stderr).contains("refused with 11:");
        if output.status.code() != Some(1) || !refused || self.path(unwritten).exists() {
            return Err(Failure::Input("the week ends here: the run should have been refused with 11".to_string()));
        }
        print_text(&format!("(exit status 1; {unwritten} was not written)\n"))
    }
}

/// The keys without the last.
fn but_one(keys: &str) -> String {
    let lines: Vec<&str> = keys.lines().collect();
    lines[..lines.len().saturating_sub(1)].iter().map(|key| format!("{key}\n")).collect()
}

fn day(name: &str, text: &str) -> Result<(), Failure> {
    print_text(&format!("\n== {name} ==\n{text}\n"))
}

fn week(args: &Args) -> Result<(), Failure> {
    let date = date(args.option("--date"))?;
    let folder = args.option("--folder").unwrap_or("week");
    let week = Week::open(folder)?;
    print_text(&format!(
        "One map from Monday to Friday: it averages a movement's beats over its positions. The files are in {folder}.\n\
         Encryption is outside this library: what is shown is the arithmetic that the encrypted run would make.\n"
    ))?;
    day("Monday", "The engineer writes the map: 16 movements of 8 slots, each slot sums its movement's 6 positions.")?;
    week.does("map terms average.terms --slots 128 --period 8 -o average.map")?;
    week.does("map show average.map")?;
    day("Tuesday", "The planner splits its diagonals into baby and giant rotations.")?;
    week.does("width average.map --most 3")?;
    week.does("plan average.map --strategy powers:4 --picture --svg plan.svg")?;
    day("Wednesday", "The workshop makes the keys on the plan's list, and no others.")?;
    week.does("keys average.map --strategy powers:4 -o keys.txt")?;
    let keys = week.read("keys.txt")?;
    print_text(&format!("(keys.txt: {})\n", keys.split_whitespace().collect::<Vec<_>>().join(" ")))?;
    week.write("keys-but-one.txt", &but_one(&keys))?;
    day("Thursday", "The server runs the plan on the beats with those keys only; then with one key missing.")?;
    week.does("run average.map beats.txt --text --strategy powers:4 --keys keys.txt -o answer.txt")?;
    let missing = "run average.map beats.txt --text --strategy powers:4 --keys keys-but-one.txt -o second.txt";
    week.is_refused(missing, "second.txt")?;
    day("Friday", "The workshop opens the answer, checks it and prints the rates.")?;
    week.does("check average.map --input beats.txt --answer answer.txt --text")?;
    week.does(&format!("slip answer.txt --text --date {date}"))
}

#[cfg(test)]
mod tests {
    #[test]
    fn one_key_is_left_out() {
        assert_eq!(super::but_one("1\n2\n4\n"), "1\n2\n");
        assert_eq!(super::but_one(""), "");
    }
}
