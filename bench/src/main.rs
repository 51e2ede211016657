//! The benchmark: nanoseconds a step, of the archive, of the second program
//! and of the engine by value where that can be timed (build.rs), and
//! nanoseconds a begin and a job of the plain engine and microseconds a lookup
//! in a book, in one run; the stack of each exported function; the size of a
//! state; instructions a call, beside the second program and a plain C engine,
//! which is first held against the archive. It writes Markdown. It is no test: its figures vary
//! with where and, but for the instructions, when it runs.

mod begins;
mod books;
mod callers;
mod callgrind;
mod count;
mod plain;
mod plainly;
mod sides;
mod stack;

use chantgarden::lent::NUMBERS;
use plain::Plain;
use second::engine::{Engine, Standing};
use second::generate::Random;
use sides::{ByValue, InPlace, Lent, Side};
use std::process::ExitCode;

/// The calls of include/chantgarden.h.
const CALLS: [&str; 13] = [
    "chant_setup",
    "chant_begin",
    "chant_step",
    "chant_collect",
    "chant_drop",
    "chant_read_word",
    "chant_read_lock",
    "chant_show",
    "chant_park",
    "chant_record",
    "chant_plain",
    "chant_book_find",
    "chant_book_add",
];
/// Tries in one timed round, of all workers of all its engines.
const TRIES: usize = 16;
/// Rounds that are played one after the other by one side, then by the next.
const ROUNDS: usize = 50;
/// How often all sides come on.
const TURNS: usize = 100;
/// Random calls on which the plain C engine is held against the archive.
const HELD: u64 = 200_000;

/// What is played: the setup, the lock and the job that all workers get.
pub struct Game {
    setup: Vec<u8>,
    lock: u32,
    job: Vec<u8>,
    workers: u32,
}

impl Game {
    /// So many locks and words; the last lock guards the words, and the job
    /// moves 1 from the last word but one to the last. It has loads, stores,
    /// a set, a skip, an add and a sub, and takes 21 steps alone, whatever
    /// the values are.
    fn new(locks: u8, words: u8, workers: u32) -> Game {
        let length = 6 + 5 * usize::from(words) + 4 * usize::from(locks);
        let mut setup = vec![length as u8, (length >> 8) as u8, 2, 0, locks, words];
        setup.resize(6 + usize::from(words), locks - 1);
        setup.resize(length, 0);
        let (from, to) = (words - 2, words - 1);
        let program = [
            [2, 0, from, 0],
            [2, 1, to, 0],
            [1, 2, 1, 0],
            [7, 2, 2, 1],
            [0, 0, 0, 0],
            [6, 0, 2, 0],
            [5, 1, 2, 0],
            [3, 0, from, 0],
            [3, 1, to, 0],
            [0, 1, 0, 0],
        ];
        let mut job = vec![4 + 4 * program.len() as u8, 0, 1, 0];
        job.extend(program.concat());
        Game {
            setup,
            lock: u32::from(locks) - 1,
            job,
            workers,
        }
    }

    /// How many engines play, so that a round always has as many tries.
    fn engines(&self) -> usize {
        TRIES / self.workers as usize
    }

    /// A random order of steps that takes all workers of an engine, which
    /// have all begun, to their ends, with no step that is refused.
    fn order(&self, engine: &mut Engine, random: &mut Random) -> Vec<u32> {
        let mut left: Vec<u32> = (0..self.workers).collect();
        let mut order = Vec::new();
        while !left.is_empty() {
            let worker = random.pick(&left);
            order.push(worker);
            engine.step(worker).expect("it is under way");
            left.retain(|&worker| engine.standing(worker) == Standing::UnderWay);
        }
        order
    }
}

/// Nanoseconds a step of each side: the middle one of all rounds.
fn play(game: &Game, sides: &mut [Box<dyn Side>]) -> Vec<f64> {
    let mut random = Random::new(1);
    let mut plan = InPlace::new(game);
    let mut times: Vec<Vec<f64>> = vec![Vec::new(); sides.len()];
    for turn in 0..TURNS {
        let orders: Vec<Vec<Vec<u32>>> = (0..ROUNDS)
            .map(|_| {
                let engines = plan.engines.iter_mut();
                let orders = engines.map(|engine| game.order(engine, &mut random));
                let orders = orders.collect();
                plan.anew(game);
                orders
            })
            .collect();
        for number in 0..sides.len() {
            let number = (number + turn) % sides.len();
            let side = &mut sides[number];
            for order in &orders[..side.rounds().min(ROUNDS)] {
                let steps: usize = order.iter().map(Vec::len).sum();
                let time = side.round(game, order).as_nanos();
                times[number].push(time as f64 / steps as f64);
                side.anew(game);
            }
        }
    }
    let planned = plan.words(game);
    for words in sides.iter().filter_map(|side| side.words(game)) {
        assert_eq!(Some(words), planned, "all did the same");
    }
    times.into_iter().map(middle).collect()
}

fn middle(mut times: Vec<f64>) -> f64 {
    times.sort_by(f64::total_cmp);
    times[times.len() / 2]
}

fn all_sides(game: &Game) -> Vec<Box<dyn Side>> {
    let mut sides: Vec<Box<dyn Side>> = vec![Box::new(Lent::new(game))];
    sides.push(Box::new(InPlace::new(game)));
    if ByValue::THERE {
        sides.push(Box::new(ByValue));
    }
    sides
}

/// A table for 1, 2, 4 and 8 workers at one lock.
fn workers_table() {
    println!("Nanoseconds a step, workers at one lock:\n");
    let by_value = ByValue::THERE;
    let more = |text: &str| {
        if by_value {
            text.to_string()
        } else {
            String::new()
        }
    };
    let columns = more(" by value | by value / `chant_step` |");
    println!("| workers | `chant_step` | second program | `chant_step` / second |{columns}");
    println!("|---|---|---|---|{}", more("---|---|"));
    for workers in [1, 2, 4, 8] {
        let game = Game::new(1, 2, workers);
        let times = play(&game, &mut all_sides(&game));
        let (lent, second) = (times[0], times[1]);
        let ratio = lent / second;
        print!("| {workers} | {lent:.1} | {second:.1} | {ratio:.2} |");
        if let Some(by_value) = times.get(2) {
            print!(" {by_value:.1} | {:.0} |", by_value / lent);
        }
        println!();
    }
}

/// A table for the smallest setup and the largest.
fn setups_table() {
    println!("\nNanoseconds a step, 8 workers at one lock, by setup:\n");
    println!("| setup | `chant_step` | second program |");
    println!("|---|---|---|");
    for (locks, words) in [(1, 2), (16, 64)] {
        let game = Game::new(locks, words, 8);
        let mut sides = all_sides(&game);
        sides.truncate(2);
        let times = play(&game, &mut sides);
        let (lent, second) = (times[0], times[1]);
        println!("| locks: {locks}, words: {words} | {lent:.1} | {second:.1} |");
    }
}

fn stack_table(archive: &str) -> Result<(), String> {
    let needs = stack::read(archive, &CALLS, Engine::INSTRUCTIONS)?;
    println!("\nStack of each call, with the return address; the plain engine calls itself, once for each of 64 instructions:\n");
    println!("| call | bytes | calls outside the archive |");
    println!("|---|---|---|");
    for (call, need) in CALLS.iter().zip(needs) {
        let bytes = need.bytes.map_or("no bound".to_string(), |b| b.to_string());
        let outside: Vec<String> = need.outside.iter().map(|o| format!("`{o}`")).collect();
        println!("| `{call}` | {bytes} | {} |", outside.join(", "));
    }
    Ok(())
}

/// Holds the plain C engine against the archive and the second program, call
/// by call; tells how many calls there were.
fn hold() -> Result<String, String> {
    let plain = Box::new(Plain::blank());
    let held = compare::compare(1, HELD, Some(plain), |_| ());
    let held = held.map_err(|no| format!("plain.c (the third) is no peer: {no}"))?;
    Ok(held.counts())
}

/// All that the benchmark writes. Nothing is timed or counted of a peer that
/// does something else.
fn write(archive: &str) -> Result<(), String> {
    let held = hold()?;
    workers_table();
    setups_table();
    begins::table();
    let job = Game::new(1, 2, 1).job;
    plainly::table(&job);
    books::table(&job);
    stack_table(archive)?;
    println!("\nA state: {NUMBERS} numbers, {} bytes.", 4 * NUMBERS);
    println!("\nThe plain C engine answered like the archive: {held}.");
    count::tables()
}

fn main() -> ExitCode {
    let words: Vec<String> = std::env::args().skip(1).collect();
    let words: Vec<&str> = words.iter().map(String::as_str).collect();
    let done = match words[..] {
        ["count", "1"] => count::play_all(1),
        ["count", "8"] => count::play_all(8),
        [archive] => write(archive),
        _ => {
            eprintln!("usage: bench ARCHIVE, bench count 1, bench count 8");
            return ExitCode::from(2);
        }
    };
    match done {
        Ok(()) => ExitCode::SUCCESS,
        Err(fault) => {
            eprintln!("bench: {fault}");
            ExitCode::FAILURE
        }
    }
}

#[cfg(test)]
mod tests {
    #[test]
    fn the_plain_engine_is_a_peer() {
        super::hold().unwrap_or_else(|no| panic!("{no}"));
    }
}
