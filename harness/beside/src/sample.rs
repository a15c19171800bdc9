//! The recorded sample: calls in crates/replay/stdin, the Rust's answers in crates/replay/stdout. A call is a line with
//! its code, the number of its words and the words; an answer is a line with its numbers.

use std::fmt::Write;
use std::fs;
use std::path::PathBuf;
use std::process::ExitCode;

use sibukyaran::lent::PairRecord;

use crate::tally::Tally;
use crate::{diagonals, files, keyed, keys, linear_transformation, matrices, plans, ring, runs};

#[derive(Default)]
pub struct Sample {
    calls: String,
    answers: String,
}

/// What crates/replay has room for: bytes of calls, and records of one call.
const LONGEST_TEXT: usize = 524_288;
const MOST_RECORDS: usize = 256;

/// Lent records as they are before a call.
pub fn held_records(room: usize) -> Vec<PairRecord> {
    assert!(room <= MOST_RECORDS, "too many records for a call: {room}");
    vec![PairRecord { odd: 7, even_there: true }; room]
}

/// Lent records in an answer: two numbers each, the odd node and 1 or 0.
pub fn record_numbers(records: &[PairRecord]) -> Vec<u64> {
    records.iter().flat_map(|record| [record.odd as u64, record.even_there as u64]).collect()
}

impl Sample {
    pub fn call(&mut self, code: u64, words: &[u64], answer: &[u64]) {
        write!(self.calls, "{code} {}", words.len()).unwrap();
        words.iter().for_each(|w| write!(self.calls, " {w}").unwrap());
        self.calls.push('\n');
        let answer: Vec<String> = answer.iter().map(u64::to_string).collect();
        writeln!(self.answers, "{}", answer.join(" ")).unwrap();
    }
}

fn made() -> Sample {
    let mut sample = Sample::default();
    ring::sample(&mut sample);
    diagonals::sample(&mut sample);
    runs::sample(&mut sample);
    linear_transformation::sample(&mut sample);
    plans::sample(&mut sample);
    keys::sample(&mut sample);
    matrices::sample(&mut sample);
    keyed::sample(&mut sample);
    files::sample(&mut sample);
    assert!(sample.calls.len() <= LONGEST_TEXT, "the sample is too long: {} bytes", sample.calls.len());
    sample
}

fn files() -> (PathBuf, PathBuf) {
    let folder = PathBuf::from(env!("CARGO_MANIFEST_DIR")).join("../../crates/replay");
    (folder.join("stdin"), folder.join("stdout"))
}

/// The recorded files are what the Rust answers now.
pub fn compare(tally: &mut Tally) {
    let sample = made();
    let (calls, answers) = files();
    tally.run("the recorded sample is the Rust's", |cases| {
        for (path, made) in [(calls, sample.calls), (answers, sample.answers)] {
            let text = fs::read_to_string(&path).unwrap_or_default();
            cases.same(|| path.display().to_string(), text.lines().count(), made.lines().count());
            for (recorded, made) in text.lines().zip(made.lines()) {
                cases.same(|| path.display().to_string(), recorded, made);
            }
        }
    });
}

pub fn record() -> ExitCode {
    let sample = made();
    let (calls, answers) = files();
    fs::write(&calls, &sample.calls).unwrap();
    fs::write(&answers, &sample.answers).unwrap();
    println!("{} calls recorded, {} bytes", sample.calls.lines().count(), sample.calls.len());
    ExitCode::SUCCESS
}
