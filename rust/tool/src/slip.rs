//! `slip`: the regulation slip, from the averaged beats of the week's example.

use std::fmt::Write;

use crate::args::{Args, Command};
use crate::date::date;
use crate::failure::Failure;
use crate::files;

pub const SLIP: Command = Command {
    name: "slip",
    about: "the regulation slip of movements whose beats were averaged",
    usage: "ANSWER [--date D] [--block B] [--positions P] [--beats N] [--per-hour H] [--text]",
    help: "ANSWER is a vector: each B slots (8 without it) are a movement's, and the first of them has the sum over its P\n\
           positions (6) of the microseconds that N beats (480) took, of a movement that should make H an hour (28800).\n\
           The rate is that of the mean over the positions.\n\n\
           --date D  the day of the slip, as 2026-11-20; without it today's\n\
           --text    ANSWER has one number a line, in place of eight bytes a slot, least first",
    options: &["--date", "--block", "--positions", "--beats", "--per-hour"],
    flags: &["--text"],
    words: (1, 1),
    run: slip,
};

/// How beats were counted.
struct Count {
    positions: u32,
    beats: u32,
    per_hour: u32,
}

/// A number divided, rounded to the nearest, halves away from 0.
fn rounded(number: i128, by: i128) -> i128 {
    let half = if number < 0 { -by / 2 } else { by / 2 };
    (number + half) / by
}

impl Count {
    /// The rate in tenths of a second a day, of a sum over the positions in microseconds: what a day of the right beats
    /// gains over a day of these. Nothing where nothing was counted.
    fn rate(&self, sum: u64) -> Option<i128> {
        let right = i128::from(self.positions) * i128::from(self.beats) * 3_600_000_000;
        let counted = i128::from(sum) * i128::from(self.per_hour);
        (sum != 0).then(|| rounded(864_000 * (right - counted), counted))
    }

    /// The slip's line of a movement.
    fn line(&self, movement: usize, sum: u64) -> String {
        let Some(tenths) = self.rate(sum) else {
            return format!("{movement:>8}      no beats\n");
        };
        let mean = rounded(sum.into(), self.positions.into());
        let (seconds, micros) = (mean / 1_000_000, mean % 1_000_000);
        let sign = if tenths < 0 { '-' } else { '+' };
        let (whole, tenth) = (tenths.abs() / 10, tenths.abs() % 10);
        let (mean, rate) = (format!("{seconds}.{micros:06} s"), format!("{sign}{whole}.{tenth} s/day"));
        format!("{movement:>8}  {mean:>14}  {rate:>14}\n")
    }
}

/// A number of an option, at least 1.
fn positive(args: &Args, name: &str, otherwise: u32) -> Result<u32, Failure> {
    match args.number(name)?.unwrap_or(otherwise) {
        0 => Err(Failure::Usage(format!("{name} is 0: it must be at least 1"))),
        number => Ok(number),
    }
}

fn slip(args: &Args) -> Result<(), Failure> {
    let date = date(args.option("--date"))?;
    let block = positive(args, "--block", 8)? as usize;
    let count = Count {
        positions: positive(args, "--positions", 6)?,
        beats: positive(args, "--beats", 480)?,
        per_hour: positive(args, "--per-hour", 28_800)?,
    };
    let name = args.word(0).expect("the command has a word");
    let answer = files::read_vector(name, args.has("--text"))?;
    if answer.is_empty() || !answer.len().is_multiple_of(block) {
        let slots = answer.len();
        return Err(Failure::Input(format!(
            "{name}: it has {slots} slots, which are no movements of {block} slots each"
        )));
    }
    let Count { positions, beats, per_hour } = count;
    let mut text = format!("REGULATION SLIP               {date}\n");
    let _ = writeln!(text, "{beats} beats at {per_hour} an hour, mean of {positions} positions\n");
    let _ = writeln!(text, "movement  {:>14}  {:>14}", format!("{beats} beats"), "rate");
    for (movement, slots) in answer.chunks_exact(block).enumerate() {
        text += &count.line(movement + 1, slots[0]);
    }
    files::print_text(&text)
}

#[cfg(test)]
mod tests {
    use super::*;

    const COUNT: Count = Count { positions: 6, beats: 480, per_hour: 28_800 };

    #[test]
    fn rates_are_rounded_to_tenths() {
        // 60,000,000 microseconds is right; 1 s/day is 694.4 in a minute.
        for (sum, rate) in [
            (360_000_000, Some(0)),
            (359_995_833, Some(10)),
            (360_004_167, Some(-10)),
            (359_999_792, Some(0)),
            (359_999_791, Some(1)),
            (360_000_209, Some(-1)),
            (180_000_000, Some(864_000)),
            (720_000_000, Some(-432_000)),
            (0, None),
        ] {
            assert_eq!(COUNT.rate(sum), rate, "{sum}");
        }
        assert!(COUNT.rate(u64::MAX).is_some() && COUNT.rate(1).is_some());
    }

    #[test]
    fn a_line_has_mean_and_rate() {
        assert_eq!(COUNT.line(3, 359_982_501), "       3     59.997084 s      +4.2 s/day\n");
        assert_eq!(COUNT.line(16, 0), "      16      no beats\n");
    }
}
