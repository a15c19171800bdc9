//! The Rust beside ours.
//!
//! `beside compare` runs both on the same calls and ends in 'N passed, M failed'. `beside record` writes the recorded
//! sample of the Rust's answers. `beside bench` times both in one run, `beside bench LAYER` one layer alone.

#![forbid(unsafe_code)]

mod bench;
mod calls;
mod diagonals;
mod drop_in;
mod files;
mod guards;
mod keyed;
mod keys;
mod linear_transformation;
mod machine;
mod matrices;
mod owned;
mod plans;
mod random;
mod ring;
mod runs;
mod sample;
mod tally;

use std::process::ExitCode;

/// No call needs more stack than this, the harness's own use included.
const STACK: usize = 1 << 20;

fn compare() -> ExitCode {
    let all = || {
        let mut tally = tally::Tally::default();
        ring::compare(&mut tally);
        diagonals::compare(&mut tally);
        files::compare(&mut tally);
        linear_transformation::compare(&mut tally);
        plans::compare(&mut tally);
        keys::compare(&mut tally);
        matrices::compare(&mut tally);
        runs::compare(&mut tally);
        keyed::compare(&mut tally);
        owned::compare(&mut tally);
        drop_in::compare(&mut tally);
        sample::compare(&mut tally);
        tally.close()
    };
    std::thread::Builder::new().stack_size(STACK).spawn(all).unwrap().join().unwrap_or(ExitCode::FAILURE)
}

fn main() -> ExitCode {
    let command = std::env::args().nth(1).unwrap_or_default();
    match command.as_str() {
        "compare" => compare(),
        "record" => sample::record(),
        "bench" => bench::run(std::env::args().nth(2).as_deref()),
        _ => {
            eprintln!("beside: compare, record or bench");
            ExitCode::from(2)
        }
    }
}
