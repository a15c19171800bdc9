//! Times of ours and the Rust's on the same inputs, in one run. Times are the best of many rounds, taken in turn.

use std::hint::black_box;
use std::process::ExitCode;
use std::time::{Duration, Instant};

use crate::{diagonals, files, keyed, matrices, plans, ring, runs};

pub use std::hint::black_box as keep;

#[derive(Default)]
pub struct Bench {
    missed: u32,
}

const ROUNDS: u32 = 15;
const ROUND: Duration = Duration::from_millis(20);

/// Seconds a call, over as many calls as fill a round.
fn timed<T>(call: &mut impl FnMut() -> T) -> f64 {
    let start = Instant::now();
    let mut calls = 0;
    while calls == 0 || start.elapsed() < ROUND {
        for _ in 0..16 {
            black_box(call());
            calls += 1;
            if start.elapsed() > ROUND {
                break;
            }
        }
    }
    start.elapsed().as_secs_f64() / calls as f64
}

fn shown(seconds: f64) -> String {
    let (value, unit) = match seconds {
        s if s < 1e-6 => (s * 1e9, "ns"),
        s if s < 1e-3 => (s * 1e6, "us"),
        s => (s * 1e3, "ms"),
    };
    format!("{value:.2} {unit}")
}

impl Bench {
    /// One line: the two times, the ratio of the Rust's to ours, and the ratio to reach, if there is one.
    pub fn pair<T, U>(
        &mut self,
        name: &str,
        reach: Option<f64>,
        mut ours: impl FnMut() -> T,
        mut rust: impl FnMut() -> U,
    ) {
        let (mut best_ours, mut best_rust) = (f64::INFINITY, f64::INFINITY);
        for _ in 0..ROUNDS {
            best_ours = best_ours.min(timed(&mut ours));
            best_rust = best_rust.min(timed(&mut rust));
        }
        let ratio = best_rust / best_ours;
        let verdict = match reach {
            None => "no target".to_string(),
            Some(reach) if ratio >= reach => format!("to reach {reach:.2}  reached"),
            Some(reach) => format!("to reach {reach:.2}  MISSED"),
        };
        self.missed += reach.is_some_and(|reach| ratio < reach) as u32;
        println!(
            "{name:<53} ours {:>10}  rust {:>10}  ratio {ratio:>7.2}  {verdict}",
            shown(best_ours),
            shown(best_rust)
        );
    }
}

/// A layer's name and its lines.
type Layer = (&'static str, fn(&mut Bench));

/// The lines of every layer, or of the one that is named.
pub fn run(layer: Option<&str>) -> ExitCode {
    let layers: [Layer; 7] = [
        ("ring", ring::bench),
        ("diagonals", diagonals::bench),
        ("plans", plans::bench),
        ("matrices", matrices::bench),
        ("runs", runs::bench),
        ("keyed", keyed::bench),
        ("files", files::bench),
    ];
    let mut bench = Bench::default();
    for (name, lines) in layers {
        if layer.is_none_or(|wanted| wanted == name) {
            lines(&mut bench);
        }
    }
    println!("{} missed", bench.missed);
    ExitCode::from((bench.missed > 0) as u8)
}
