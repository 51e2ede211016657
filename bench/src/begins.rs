//! Nanoseconds a begin, of the archive and of the second program: eight
//! workers begin one after the other, where all locks are free, and where all
//! 16 are held and as many sheets are in use by them.

use crate::{middle, Game};
use chantgarden::lent::{self, NUMBERS};
use second::engine::Engine;
use std::hint::black_box;
use std::time::Instant;

const LOCKS: u8 = 16;
const WORDS: u8 = 64;
const WORKERS: u32 = 8;
const ROUNDS: usize = 20_000;
/// A job that names no word.
const HALT: [u8; 8] = [8, 0, 1, 0, 0, 1, 0, 0];

/// The calls that are made, each told as accepted or not.
trait Calls {
    fn begin(&mut self, worker: u32, lock: u32, job: &[u8]) -> bool;
    fn step(&mut self, worker: u32) -> bool;
    fn drop_worker(&mut self, worker: u32) -> bool;
}

impl Calls for Vec<u32> {
    fn begin(&mut self, worker: u32, lock: u32, job: &[u8]) -> bool {
        lent::begin(self, worker, lock, job).number == 0
    }

    fn step(&mut self, worker: u32) -> bool {
        lent::step(self, worker).number == 0
    }

    fn drop_worker(&mut self, worker: u32) -> bool {
        lent::drop(self, worker).number == 0
    }
}

impl Calls for Engine {
    fn begin(&mut self, worker: u32, lock: u32, job: &[u8]) -> bool {
        Engine::begin(self, worker, lock, job).is_ok()
    }

    fn step(&mut self, worker: u32) -> bool {
        Engine::step(self, worker).is_ok()
    }

    fn drop_worker(&mut self, worker: u32) -> bool {
        Engine::drop_worker(self, worker).is_ok()
    }
}

/// Worker 0 wins each lock and is dropped.
fn hold_all(calls: &mut impl Calls) {
    for lock in 0..u32::from(LOCKS) {
        let held = calls.begin(0, lock, &HALT) && calls.step(0) && calls.step(0);
        assert!(held && calls.drop_worker(0));
    }
}

/// Nanoseconds a begin of one round.
fn round(calls: &mut impl Calls, game: &Game) -> f64 {
    let mut begun = true;
    let started = Instant::now();
    for worker in 0..WORKERS {
        begun &= calls.begin(worker, game.lock, black_box(&game.job));
    }
    let time = started.elapsed().as_nanos() as f64 / f64::from(WORKERS);
    let dropped = (0..WORKERS).all(|worker| calls.drop_worker(worker));
    assert!(begun && dropped);
    time
}

fn times(game: &Game, held: bool) -> [f64; 2] {
    let mut lent = vec![0; NUMBERS];
    assert_eq!(lent::setup(&mut lent, &game.setup).number, 0);
    let mut second = Engine::blank();
    second.setup(&game.setup).expect("it is good");
    if held {
        hold_all(&mut lent);
        hold_all(&mut second);
    }
    let mut all = [Vec::new(), Vec::new()];
    for _ in 0..ROUNDS {
        all[0].push(round(&mut lent, game));
        all[1].push(round(&mut second, game));
    }
    all.map(middle)
}

/// One row for free locks, one for held ones.
pub fn table() {
    println!("\nNanoseconds a begin, 8 workers one after the other, with 16 locks and 64 words:\n");
    println!("| locks | `chant_begin` | second program | `chant_begin` / second |");
    println!("|---|---|---|---|");
    let game = Game::new(LOCKS, WORDS, WORKERS);
    for (name, held) in [("free", false), ("held", true)] {
        let [lent, second] = times(&game, held);
        let ratio = lent / second;
        println!("| {name} | {lent:.1} | {second:.1} | {ratio:.2} |");
    }
}
