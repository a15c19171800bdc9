//! Comparisons by name, and their count.

use std::fmt::Debug;
use std::process::ExitCode;

/// The cases of one comparison.
#[derive(Default)]
pub struct Cases {
    count: u64,
    wrong: u64,
    first: Option<String>,
}

impl Cases {
    /// One case: what ours answered and what it should have.
    pub fn same<T: PartialEq + Debug>(&mut self, call: impl FnOnce() -> String, ours: T, right: T) {
        self.count += 1;
        if ours != right {
            self.wrong += 1;
            self.first.get_or_insert_with(|| {
                let mut text = format!("{}: ours {ours:?}, should be {right:?}", call());
                text.truncate(600);
                text
            });
        }
    }
}

#[derive(Default)]
pub struct Tally {
    passed: u64,
    failed: u64,
}

impl Tally {
    /// Runs a comparison, which passes if it has cases and none is wrong.
    pub fn run(&mut self, name: &str, compare: impl FnOnce(&mut Cases)) {
        let mut cases = Cases::default();
        compare(&mut cases);
        if cases.count > 0 && cases.wrong == 0 {
            self.passed += 1;
            println!("same: {name} ({} cases)", cases.count);
        } else {
            self.failed += 1;
            let first = cases.first.unwrap_or_else(|| "it has no case".into());
            println!("DIFFERS: {name} ({} of {} cases): {first}", cases.wrong, cases.count);
        }
    }

    /// The total, as the last line.
    pub fn close(self) -> ExitCode {
        println!("{} passed, {} failed", self.passed, self.failed);
        ExitCode::from((self.failed > 0) as u8)
    }
}
