//! Random runs of the plain engine (request 05): tables of every length up to
//! somewhat beyond the longest, and such that differ in length; any lock, and
//! such as differ from a guard above its byte alone; jobs good and damaged.

use super::{Generator, Kind};
use crate::engine::Engine;

/// What the plain engine is given.
#[derive(Clone, PartialEq, Eq, Debug)]
pub struct Given {
    pub values: Vec<u32>,
    pub guards: Vec<u8>,
    pub lock: u32,
    pub record: Vec<u8>,
}

/// The longest random table: two words more than there may be.
pub const LONGEST_TABLE: usize = Engine::WORDS + 2;

/// What one run is given, the same from the same seed.
pub fn given(seed: u64) -> Given {
    let mut generator = Generator::new(seed, Kind::Wide);
    let words = generator.table_length();
    let values = (0..words).map(|_| generator.value()).collect();
    let first = generator.first_guard();
    let mut guards: Vec<u8> = (0..words).map(|_| generator.guard(first)).collect();
    let named = generator.guard(first);
    let record = generator.plain_job(&guards, named);
    let lock = generator.lock_like(first, named);
    if generator.random.one_in(12) {
        generator.change_length(&mut guards);
    }
    Given {
        values,
        guards,
        lock,
        record,
    }
}

impl Generator {
    fn table_length(&mut self) -> usize {
        match self.random.below(6) {
            0 => self.random.below(LONGEST_TABLE as u32 + 1) as usize,
            1 => self.random.pick(&[0, 1, 63, 64, 64, 65, 66]),
            _ => self.style.words as usize,
        }
    }

    /// The lowest guard of a table. Those above it follow, as many as there
    /// are locks; at times the last of them is 255.
    fn first_guard(&mut self) -> u8 {
        let last = (256 - self.style.locks) as u8;
        let any = self.random.below(u32::from(last) + 1) as u8;
        self.random.pick(&[0, 0, last, any])
    }

    fn guard(&mut self, first: u8) -> u8 {
        first + self.random.below(self.style.locks) as u8
    }

    /// A job on the words with this guard, or at times on any words; then
    /// perhaps damaged.
    fn plain_job(&mut self, guards: &[u8], named: u8) -> Vec<u8> {
        let any = self.random.one_in(12);
        let words = (0..).zip(guards);
        let words = words.filter(|&(_, &guard)| any || guard == named);
        let words: Vec<u8> = words.map(|(word, _)| word).collect();
        let mut record = self.job_on(&words);
        if self.random.one_in(4) {
            self.damage_job(&mut record);
        }
        record
    }

    /// A lock: mostly the guard that the job's words have, at times one that
    /// equals it in its lowest byte alone, or another one.
    fn lock_like(&mut self, first: u8, named: u8) -> u32 {
        let named = u32::from(named);
        let above = [256, 512, 65_536, 1 << 24, 1 << 31, u32::MAX - 255];
        match self.random.below(12) {
            0 => self.random.pick(&above) + named,
            1 => self.random.pick(&[0, 255, 256, u32::MAX]),
            2 => u32::from(self.guard(first)),
            3 => self.far(),
            _ => named,
        }
    }

    /// Makes the table of guards longer or shorter, by one or by any number;
    /// or perhaps leaves it as it is.
    fn change_length(&mut self, guards: &mut Vec<u8>) {
        let any = self.random.below(LONGEST_TABLE as u32 + 1) as usize;
        let (more, less) = (guards.len() + 1, guards.len().max(1) - 1);
        let length = self.random.pick(&[0, more, less, any]);
        guards.resize(length, 0);
    }
}
