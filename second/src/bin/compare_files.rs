//! Holds this program's `replay` against another one: random call files
//! through both, every byte equal. File number i of a run is the one of
//! `generate files` with SEED + i.

use second::compare::{self, Asked, Fault};
use second::files::{self, Ended, Walked};
use second::generate;
use std::collections::BTreeMap;
use std::process::ExitCode;
use std::sync::Mutex;
use std::thread;
use std::time::{Duration, Instant};

/// How many files are compared at a time: one on each of two cores.
const AT_A_TIME: usize = 2;

/// The ways in which the walk of a file ends, in the words of the summary.
const WAYS: [(Ended, &str); 9] = [
    (Ended::Whole, "whole"),
    (Ended::TooLong, "too long"),
    (Ended::CutSetup, "setup cut short"),
    (Ended::Setup(5), "setup refused 5"),
    (Ended::Setup(6), "setup refused 6"),
    (Ended::Setup(12), "setup refused 12"),
    (Ended::Record(5), "record refused 5"),
    (Ended::Record(6), "record refused 6"),
    (Ended::Record(17), "record refused 17"),
];

fn main() -> ExitCode {
    compare::program("difference.file", compare_all)
}

/// Compares all files; tells how many of each kind, or the first difference.
fn compare_all(asked: &Asked) -> Result<String, String> {
    let progress = Mutex::new(Progress::none());
    thread::scope(|scope| {
        for _ in 0..AT_A_TIME {
            scope.spawn(|| while compare_next(asked, &progress) {});
        }
    });
    let progress = progress.into_inner().expect("no thread has failed");
    match progress.faults.first_key_value() {
        None => Ok(progress.summary()),
        Some((seed, fault)) => {
            let saved = compare::save("file", &generate::files::file(*seed), &asked.saved);
            Err(format!("seed {seed}: {}\n{saved}", fault.words))
        }
    }
}

/// Compares the next file, if there is one.
fn compare_next(asked: &Asked, progress: &Mutex<Progress>) -> bool {
    let progress = || progress.lock().expect("no thread has failed");
    let Some(seed) = progress().next_seed(asked) else {
        return false;
    };
    let file = generate::files::file(seed);
    let walked = files::walk(&file);
    let held = compare::hold(&asked.program, &file, walked.lines.as_bytes());
    progress().note(asked, seed, &walked, held);
    true
}

/// What has been compared.
struct Progress {
    /// The files that were begun with, and those that were equal.
    begun: u64,
    equal: u64,
    lines: usize,
    ended: BTreeMap<Ended, u64>,
    /// By the file's seed.
    faults: BTreeMap<u64, Fault>,
    /// When it was last told how far the comparison is.
    told: Instant,
}

impl Progress {
    fn none() -> Progress {
        Progress {
            begun: 0,
            equal: 0,
            lines: 0,
            ended: BTreeMap::new(),
            faults: BTreeMap::new(),
            told: Instant::now(),
        }
    }

    /// The seed of the next file. After a fault there is none; every file
    /// before the one with the fault has then been begun with, so that the
    /// lowest is always found.
    fn next_seed(&mut self, asked: &Asked) -> Option<u64> {
        if self.begun == asked.inputs || !self.faults.is_empty() {
            return None;
        }
        self.begun += 1;
        Some(asked.seed.wrapping_add(self.begun - 1))
    }

    fn note(&mut self, asked: &Asked, seed: u64, walked: &Walked, held: Result<(), Fault>) {
        if let Err(fault) = held {
            self.faults.insert(seed, fault);
            return;
        }
        self.equal += 1;
        self.lines += walked.lines.lines().count();
        *self.ended.entry(walked.ended).or_default() += 1;
        if self.told.elapsed() >= Duration::from_secs(1) {
            self.told = Instant::now();
            let (equal, all, lines) = (self.equal, asked.inputs, self.lines);
            eprintln!("compare: {equal} of {all} files, {lines} lines equal so far");
        }
    }

    fn summary(&self) -> String {
        let ended = WAYS.map(|(way, words)| {
            let files = self.ended.get(&way).unwrap_or(&0);
            format!("{words}: {files}")
        });
        let (files, lines, ended) = (self.equal, self.lines, ended.join(", "));
        format!("{files} files, {lines} lines, all equal; {ended}")
    }
}
