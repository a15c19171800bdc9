//! `slip` and `week`.

use crate::bench::{Bench, vector};

/// How the example's beats were made (week/README.md): each movement's rate, and what its positions differ from it by, in
/// tenths of a second a day.
const RATES: [i64; 16] = [42, -13, 0, 78, -125, 21, 55, -34, 9, -2, 163, -61, 30, -90, 5, 12];
const POSITIONS: [i64; 6] = [30, 20, -40, -10, 15, -15];

/// The microseconds that so many of 60,000,000 take at a rate in tenths of a second a day, rounded.
fn taken(times: i64, rate: i64) -> i64 {
    let (of, by) = (times * 60_000_000 * 864_000, 864_000 + rate);
    (2 * of + by) / (2 * by)
}

/// Six positions, the last of which makes up their sum, and two spare slots.
fn beats(movement: usize) -> [i64; 8] {
    let mut slots = [0; 8];
    for (slot, position) in slots.iter_mut().zip(POSITIONS).take(5) {
        *slot = taken(1, RATES[movement] + position * (1 + movement as i64 % 3));
    }
    slots[5] = taken(6, RATES[movement]) - slots.iter().sum::<i64>();
    slots
}

fn data(name: &str) -> String {
    std::fs::read_to_string(format!("{}/week/{name}", env!("CARGO_MANIFEST_DIR"))).unwrap()
}

#[test]
fn the_beats_are_made_as_their_readme_says() {
    let told: Vec<i64> =
        data("beats.txt").lines().filter(|line| !line.starts_with('#')).map(|line| line.parse().unwrap()).collect();
    let made: Vec<i64> = (0..16).flat_map(beats).collect();
    assert_eq!(told, made);
    for (movement, rate) in RATES.iter().enumerate() {
        let sign = if *rate < 0 { '-' } else { '+' };
        let row = format!("| {} | {sign}{}.{} |", movement + 1, rate.abs() / 10, rate.abs() % 10);
        assert!(data("README.md").contains(&row), "{row}");
    }
}

#[test]
fn the_week_ends_with_the_slip_that_is_known() {
    let bench = Bench::new("week");
    let told = bench.does("week --date 2026-11-20 --folder here");
    let (_, slip) = told.text().split_once("--date 2026-11-20\n").expect("the last command is the slip");
    assert_eq!(slip, data("slip.txt"));
    for (movement, rate) in RATES.iter().enumerate() {
        let sign = if *rate < 0 { '-' } else { '+' };
        let end = format!("{sign}{}.{} s/day", rate.abs() / 10, rate.abs() % 10);
        let line = slip.lines().nth(4 + movement).unwrap();
        assert!(line.trim_start().starts_with(&format!("{} ", movement + 1)) && line.ends_with(&end), "{line}");
    }
    for day in ["Monday", "Tuesday", "Wednesday", "Thursday", "Friday"] {
        assert!(told.text().contains(&format!("\n== {day} ==\n")), "{day}");
    }
    for line in [
        "$ sibukyaran map terms average.terms --slots 128 --period 8 -o average.map",
        "(keys.txt: 1 2 4 120)",
        "powers:4: 6 of 6 key switches, finished",
        "sibukyaran: refused with 11: the key for rotation 120 is not held: 1 of the plan's 4 are missing",
        "(exit status 1; second.txt was not written)",
        "the answer is the product of the map and the input in all 128 slots",
        "Encryption is outside this library: what is shown is the arithmetic that the encrypted run would make.",
    ] {
        assert!(told.text().lines().any(|told| told == line), "{line}");
    }
    assert!(!bench.path("here/second.txt").exists());
    // Again in the same folder, and under today's date.
    let again = bench.does("week --folder here");
    assert_eq!(again.text().lines().filter(|line| line.starts_with("REGULATION SLIP")).count(), 1);
}

#[test]
fn a_week_that_cannot_be_written_is_told() {
    let bench = Bench::new("bad-week");
    bench.write("file", "kept");
    bench.not_taken("week --folder file", "file: ");
    bench.misused("week --date tomorrow", "--date: 'tomorrow' is no date");
    bench.misused("week --date 2026-02-30", "--date: '2026-02-30' is no date");
}

#[test]
fn a_slip_is_printed() {
    let bench = Bench::new("slip");
    bench.write("answer.vec", vector(&[359_982_501, 9, 0, 9]));
    let told = bench.does("slip answer.vec --block 2 --date 2024-02-29");
    let text = "REGULATION SLIP               2024-02-29\n\
                480 beats at 28800 an hour, mean of 6 positions\n\n\
                movement       480 beats            rate\n\
                \x20      1     59.997084 s      +4.2 s/day\n\
                \x20      2      no beats\n";
    assert_eq!(told.text(), text);
    let told = bench.does("slip answer.vec --block 4 --positions 1 --beats 2880 --date 2024-02-29");
    assert!(told.text().ends_with("\n       1    359.982501 s      +4.2 s/day\n"), "{}", told.text());
    bench.not_taken(
        "slip answer.vec --date 2024-02-29",
        "answer.vec: it has 4 slots, which are no movements of 8 slots",
    );
    bench.misused("slip answer.vec --positions 0", "--positions is 0: it must be at least 1");
    bench.misused("slip answer.vec --date 2023-02-29", "--date: '2023-02-29' is no date");
    bench.misused("slip", "an argument is missing");
}
