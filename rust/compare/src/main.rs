//! Holds the second program against the engine's archive in one process:
//! N random calls from SEED on, every answer, refusal, place, word, lock,
//! buffer and call record equal; or, of their plain engines, N random runs,
//! every answer, refusal, place, count and value; or, of their books of
//! standard jobs, N random cases, every field and every byte of the buffer. The
//! same SEED makes the same calls, runs or cases.

use compare::{books, plain};
use std::process::ExitCode;
use std::time::Instant;

/// The seed and the number of calls, runs or cases that the command line asks
/// for.
fn asked(words: &[String]) -> Option<(u64, u64)> {
    match words {
        [seed, times] => Some((seed.parse().ok()?, times.parse().ok()?)),
        _ => None,
    }
}

fn main() -> ExitCode {
    let words: Vec<String> = std::env::args().skip(1).collect();
    let (what, words) = match words.split_first() {
        Some((first, others)) if first == "plain" => ("plain runs", others),
        Some((first, others)) if first == "books" => ("cases of books", others),
        _ => ("calls", &words[..]),
    };
    let Some((seed, times)) = asked(words) else {
        eprintln!("usage: compare [plain|books] SEED N");
        return ExitCode::from(2);
    };
    let started = Instant::now();
    let told = |done: u64| {
        let seconds = started.elapsed().as_secs();
        eprintln!("compare: {done} of {times} {what} equal so far, {seconds} s");
    };
    let compared = match what {
        "plain runs" => plain::compare(seed, times, &plain::archive, told),
        "cases of books" => books::compare(seed, times, books::ARCHIVE, told),
        _ => match compare::compare(seed, times, None, told) {
            Ok(pair) => Ok(format!("{}, all equal", pair.counts())),
            Err(difference) => Err(format!("seed {seed}, {difference}")),
        },
    };
    match compared {
        Ok(equal) => {
            println!("compare: {equal}");
            ExitCode::SUCCESS
        }
        Err(difference) => {
            println!("compare: {difference}");
            ExitCode::FAILURE
        }
    }
}
