//! The engines that are timed: each plays the same orders of the same jobs.
//! Only steps are timed; finished workers are collected and begun anew
//! between the rounds.

use crate::Game;
use chantgarden::lent::{self, NUMBERS};
use second::engine::Engine;
use std::time::{Duration, Instant};

/// One way to step, with engines in which all workers have begun.
pub trait Side {
    /// How many of the rounds it plays: a slow one only some.
    fn rounds(&self) -> usize {
        usize::MAX
    }

    /// Makes the steps of one order for each engine, and tells the time.
    fn round(&mut self, game: &Game, orders: &[Vec<u32>]) -> Duration;

    /// Collects every worker's answer and begins its job anew.
    fn anew(&mut self, game: &Game);

    /// The value and count of the job's two words, in each engine, where
    /// they can be read.
    fn words(&self, game: &Game) -> Option<Vec<(u32, u32)>>;
}

/// The words that the job names.
fn named(game: &Game) -> [u32; 2] {
    let words = u32::from(game.setup[5]);
    [words - 2, words - 1]
}

/// The archive, on lent numbers.
pub struct Lent {
    states: Vec<Vec<u32>>,
}

impl Lent {
    pub fn new(game: &Game) -> Lent {
        let mut states = vec![vec![0; NUMBERS]; game.engines()];
        for state in &mut states {
            assert_eq!(lent::setup(state, &game.setup).number, 0);
            for worker in 0..game.workers {
                let told = lent::begin(state, worker, game.lock, &game.job);
                assert_eq!(told.number, 0);
            }
        }
        Lent { states }
    }
}

impl Side for Lent {
    fn round(&mut self, _: &Game, orders: &[Vec<u32>]) -> Duration {
        let mut refused = 0;
        let start = Instant::now();
        for (state, order) in self.states.iter_mut().zip(orders) {
            for &worker in order {
                refused |= lent::step(state, worker).number;
            }
        }
        let time = start.elapsed();
        assert_eq!(refused, 0);
        time
    }

    fn anew(&mut self, game: &Game) {
        for state in &mut self.states {
            for worker in 0..game.workers {
                let collected = lent::collect(state, worker).number;
                let begun = lent::begin(state, worker, game.lock, &game.job).number;
                assert_eq!((collected, begun), (0, 0));
            }
        }
    }

    fn words(&self, game: &Game) -> Option<Vec<(u32, u32)>> {
        let read = |state| named(game).map(|word| lent::read_word(state, word));
        let words = self.states.iter().flat_map(|state| read(state));
        Some(words.map(|word| (word.value, word.count)).collect())
    }
}

/// The second program, in place.
pub struct InPlace {
    pub engines: Vec<Engine>,
}

impl InPlace {
    pub fn new(game: &Game) -> InPlace {
        let mut engines = vec![Engine::blank(); game.engines()];
        for engine in &mut engines {
            engine.setup(&game.setup).expect("it is good");
            for worker in 0..game.workers {
                let begun = engine.begin(worker, game.lock, &game.job);
                begun.expect("it is idle");
            }
        }
        InPlace { engines }
    }
}

impl Side for InPlace {
    fn round(&mut self, _: &Game, orders: &[Vec<u32>]) -> Duration {
        let mut refused = false;
        let start = Instant::now();
        for (engine, order) in self.engines.iter_mut().zip(orders) {
            for &worker in order {
                refused |= engine.step(worker).is_err();
            }
        }
        let time = start.elapsed();
        assert!(!refused);
        time
    }

    fn anew(&mut self, game: &Game) {
        for engine in &mut self.engines {
            for worker in 0..game.workers {
                engine.collect(worker).expect("it is finished");
                let begun = engine.begin(worker, game.lock, &game.job);
                begun.expect("it is idle");
            }
        }
    }

    fn words(&self, game: &Game) -> Option<Vec<(u32, u32)>> {
        let read = |engine: &Engine| named(game).map(|word| engine.read_word(word));
        let words = self.engines.iter().flat_map(read).flatten();
        Some(words.map(|word| (word.value, word.count)).collect())
    }
}

/// The engine by value, inside one call that has its own state: it sets up
/// and begins each time. What a call with no step takes is left out. Without
/// the function that build.rs looks for, there is none.
pub struct ByValue;

impl ByValue {
    pub const THERE: bool = cfg!(by_value);
}

#[cfg(not(by_value))]
fn by_value_steps(_: &Game, _: &[u8]) -> u32 {
    0
}

#[cfg(by_value)]
fn by_value_steps(game: &Game, order: &[u8]) -> u32 {
    extern "C" {
        fn by_value_steps(
            setup: *const u8,
            setup_length: usize,
            job: *const u8,
            job_length: usize,
            workers: u32,
            order: *const u8,
            order_length: usize,
        ) -> u32;
    }
    let (setup, job) = (&game.setup, &game.job);
    // SAFETY: three slices, each a pointer and its length, that are only
    // read; the archive's functions keep no pointer.
    unsafe {
        by_value_steps(
            setup.as_ptr(),
            setup.len(),
            job.as_ptr(),
            job.len(),
            game.workers,
            order.as_ptr(),
            order.len(),
        )
    }
}

impl Side for ByValue {
    fn rounds(&self) -> usize {
        2
    }

    fn round(&mut self, game: &Game, orders: &[Vec<u32>]) -> Duration {
        let mut time = Duration::ZERO;
        for order in orders {
            let order: Vec<u8> = order.iter().map(|&worker| worker as u8).collect();
            let start = Instant::now();
            let none = by_value_steps(game, &[]);
            let begun = Instant::now();
            let all = by_value_steps(game, &order);
            let steps = begun.elapsed();
            assert_eq!((none, all as usize), (0, order.len()));
            time += steps.saturating_sub(begun - start);
        }
        time
    }

    fn anew(&mut self, _: &Game) {}

    fn words(&self, _: &Game) -> Option<Vec<(u32, u32)>> {
        None
    }
}
