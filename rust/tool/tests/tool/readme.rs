//! The commands that README shows print what it says they do.

use std::env;
use std::path::Path;
use std::process::Command;

use crate::bench::Bench;

/// The commands of README's console blocks, each with what it prints.
fn shown() -> Vec<(String, String)> {
    let readme = std::fs::read_to_string(concat!(env!("CARGO_MANIFEST_DIR"), "/../../README.md")).unwrap();
    let blocks = readme.split("```console\n").skip(1).map(|rest| rest.split("```").next().unwrap());
    let mut all: Vec<(String, String)> = Vec::new();
    for line in blocks.flat_map(str::lines) {
        match line.strip_prefix("$ ") {
            Some(command) => all.push((command.to_string(), String::new())),
            None => all.last_mut().expect("a command comes first").1 += &format!("{line}\n"),
        }
    }
    all
}

#[test]
fn the_commands_of_the_readme_print_what_it_says() {
    let bench = Bench::new("readme-commands");
    let tool = Path::new(env!("CARGO_BIN_EXE_sibukyaran")).parent().unwrap();
    let path = env::join_paths([tool.to_path_buf()].into_iter().chain(env::split_paths(&env::var("PATH").unwrap())));
    let shown = shown();
    assert!(shown.len() >= 5, "README shows commands");
    for (command, text) in shown {
        let mut shell = Command::new("sh");
        let output =
            shell.args(["-c", &command]).env("PATH", path.as_ref().unwrap()).current_dir(bench.path("")).output();
        let output = output.unwrap();
        let told = [output.stdout, output.stderr].concat();
        assert_eq!(String::from_utf8(told).unwrap(), text, "{command}");
    }
}
