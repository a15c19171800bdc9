//! Help, and words that are no command.

use crate::bench::Bench;

const COMMANDS: [&str; 14] = [
    "map terms",
    "map matrix",
    "map build",
    "map set",
    "map show",
    "map transpose",
    "map shrink",
    "width",
    "plan",
    "keys",
    "run",
    "check",
    "slip",
    "week",
];

#[test]
fn every_command_has_help() {
    let bench = Bench::new("help");
    let overview = bench.does("--help").text().to_string();
    for command in COMMANDS {
        assert!(overview.contains(&format!("\n  {command} ")), "{command}");
        let help = bench.does(&format!("{command} --help")).text().to_string();
        assert!(help.contains(&format!("\nusage: sibukyaran {command} ")), "{command}: {help}");
        assert!(help.lines().all(|line| line.chars().count() <= 180), "{command}: {help}");
        assert_eq!(bench.does(&format!("{command} some words -h")).text(), help);
    }
    assert!(bench.does("map --help").text().contains("map shrink"));
    assert!(!bench.does("map --help").text().contains("week"));
    assert_eq!(bench.does("--version").text(), concat!("sibukyaran ", env!("CARGO_PKG_VERSION"), "\n"));
}

#[test]
fn other_words_are_bad_usage() {
    let bench = Bench::new("usage");
    bench.misused("", "sibukyaran ");
    bench.misused("maps", "there is no command 'maps' like that");
    bench.misused("map", "there is no command 'map' like that");
    bench.misused("--colour", "there is no command '--colour' like that");
    for command in COMMANDS {
        bench.misused(&format!("{command} --colour"), "there is no option --colour");
        bench.misused(&format!("{command} a b c d"), "'");
    }
}
