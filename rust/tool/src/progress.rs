//! How far a long command is. Nothing is shown in the first second.

use std::io::{self, IsTerminal, Write};
use std::sync::mpsc::{self, RecvTimeoutError};
use std::thread;
use std::time::{Duration, Instant};

/// Shows how far a command is on standard error, on one line of a terminal, or a line each time elsewhere.
struct Line {
    terminal: bool,
    shown: bool,
}

impl Line {
    fn new() -> Line {
        Line { terminal: io::stderr().is_terminal(), shown: false }
    }

    fn show(&mut self, text: &str) {
        let (front, behind) = if self.terminal { ("\r\x1b[K", "") } else { ("", "\n") };
        let mut err = io::stderr().lock();
        // What cannot be shown is no reason to stop.
        let _ = write!(err, "{front}{text}{behind}").and_then(|()| err.flush());
        self.shown = true;
    }
}

impl Drop for Line {
    fn drop(&mut self) {
        if self.shown && self.terminal {
            eprint!("\r\x1b[K");
        }
    }
}

/// Counts steps that are all known beforehand.
pub struct Steps {
    line: Line,
    what: &'static str,
    all: usize,
    last: Instant,
}

impl Steps {
    /// For so many of something.
    pub fn new(what: &'static str, all: usize) -> Steps {
        Steps { line: Line::new(), what, all, last: Instant::now() }
    }

    /// So many are done.
    pub fn done(&mut self, n: usize) {
        if self.last.elapsed() >= Duration::from_secs(1) {
            self.last = Instant::now();
            let share = 100 * n / self.all.max(1);
            self.line.show(&format!("{n} of {} {}, {share} %", self.all, self.what));
        }
    }
}

/// How far a work of an expected time is, after so long. Never all of it: it is not done yet.
fn share(passed: Duration, expected: Duration) -> u32 {
    let share = 100.0 * passed.as_secs_f64() / expected.as_secs_f64().max(1e-9);
    share.min(99.0) as u32
}

/// Does one work that cannot be counted while it lasts, and shows each second how much of its expected time has passed.
pub fn watched<T>(what: &str, expected: Duration, work: impl FnOnce() -> T) -> T {
    let (done, waiting) = mpsc::channel::<()>();
    thread::scope(|scope| {
        scope.spawn(move || {
            let (start, mut line) = (Instant::now(), Line::new());
            while waiting.recv_timeout(Duration::from_secs(1)) == Err(RecvTimeoutError::Timeout) {
                let passed = start.elapsed();
                line.show(&format!("{what}: {} s, about {} %", passed.as_secs(), share(passed, expected)));
            }
        });
        let result = work();
        drop(done);
        result
    })
}

#[cfg(test)]
mod tests {
    use super::*;

    #[test]
    fn a_share_stays_below_the_whole() {
        let seconds = Duration::from_secs;
        assert_eq!(share(seconds(1), seconds(4)), 25);
        assert_eq!(share(seconds(9), seconds(4)), 99);
        assert_eq!(share(seconds(1), Duration::ZERO), 99);
    }
}
