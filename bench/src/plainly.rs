//! Nanoseconds a job of the plain engine: the archive's, the second program's
//! with the record checked first, as the archive does it, and the second
//! program's job alone, which is handed the checked instructions.

use chantgarden::lent;
use second::{alone, job, plain};
use std::hint::black_box;
use std::time::Instant;

/// Runs in one timed round, and rounds of each side.
const RUNS: u32 = 200;
const ROUNDS: usize = 2_000;

/// What is run: a name, and a job record under lock 0.
struct Case {
    name: &'static str,
    record: Vec<u8>,
}

/// All words are lock 0's.
const WORDS: usize = 2;
const GUARDS: [u8; WORDS] = [0; WORDS];

fn record(kind: u8, program: &[[u8; 4]]) -> Vec<u8> {
    let [low, high] = (4 + 4 * program.len() as u16).to_le_bytes();
    [&[low, high, kind, 0], &program.concat()[..]].concat()
}

/// The job of the other tables, and the longest one.
fn cases(moves: &[u8]) -> [Case; 2] {
    let mut stores = vec![[3, 0, 0, 0]; 63];
    stores.push([0, 1, 0, 0]);
    [
        Case {
            name: "moves 1 from a word to another",
            record: moves.to_vec(),
        },
        Case {
            name: "63 stores",
            record: record(4, &stores),
        },
    ]
}

/// Nanoseconds a run of one round.
fn round(mut run: impl FnMut(&mut [u32])) -> f64 {
    let mut values = [1; WORDS];
    let started = Instant::now();
    for _ in 0..RUNS {
        run(black_box(&mut values));
    }
    started.elapsed().as_nanos() as f64 / f64::from(RUNS)
}

fn times(case: &Case) -> [f64; 3] {
    let mut all = [Vec::new(), Vec::new(), Vec::new()];
    let program = job::program(&case.record, &job::NOW).expect("it is a job");
    for _ in 0..ROUNDS {
        all[0].push(round(|values| {
            let told = black_box(lent::plain(values, &GUARDS, 0, black_box(&case.record)));
            assert_eq!(told.number, 0, "it runs");
        }));
        all[1].push(round(|values| {
            let told = black_box(plain::run(values, &GUARDS, 0, black_box(&case.record)));
            assert!(told.is_ok(), "it runs");
        }));
        all[2].push(round(|values| {
            black_box(alone::run(black_box(program), values));
        }));
    }
    all.map(super::middle)
}

/// One row a job.
pub fn table(moves: &[u8]) {
    println!("\nNanoseconds a job, run plainly:\n");
    println!("| job | `chant_plain` | second program | `chant_plain` / second | its job alone, unchecked |");
    println!("|---|---|---|---|---|");
    for case in cases(moves) {
        let [lent, second, alone] = times(&case);
        let (name, ratio) = (case.name, lent / second);
        println!("| {name} | {lent:.1} | {second:.1} | {ratio:.2} | {alone:.1} |");
    }
}
