//! Random books of standard jobs (request 08): of every size and of both kinds
//! of job, good and damaged; numbers that are there, beside one that is, and
//! above the last; jobs to add, good and faulty, and buffers for them. Beside
//! them the cases at the edges, which random ones don't come to.

mod edges;

use super::{set_length, Generator, Kind};
use crate::book::{HEAD, KIND};
use crate::engine::header;
use crate::job;
pub use edges::edges;
use std::collections::{BTreeMap, BTreeSet};

/// What a lookup and the writer are given.
#[derive(Clone, PartialEq, Eq, Debug, Default)]
pub struct Given {
    pub line: Vec<u8>,
    pub factory: Vec<u8>,
    /// The number that is looked up in both.
    pub number: u32,
    /// The number under which a new job is put into the line book.
    pub new: u32,
    pub record: Vec<u8>,
    /// The size of the buffer that is lent for it.
    pub room: usize,
}

/// The jobs of a book, by their numbers.
pub type Jobs = BTreeMap<u16, Vec<u8>>;

/// The last number of a job.
const LAST: u32 = 65_535;

/// What one case is given, the same from the same seed.
pub fn given(seed: u64) -> Given {
    let mut generator = Generator::new(seed, Kind::Wide);
    let of_factory = generator.jobs(&Jobs::new());
    let of_line = generator.jobs(&of_factory);
    let sought = match generator.random.below(3) {
        0 => &of_factory,
        _ => &of_line,
    };
    let number = generator.number_about(sought);
    let new = generator.new_number(&of_line);
    let mut record = generator.job_on(&ANY_WORD);
    if generator.random.one_in(4) {
        generator.damage_job(&mut record);
    }
    let line = generator.book_of(&of_line);
    let factory = generator.book_of(&of_factory);
    let room = generator.room(line.len(), line.len() + HEAD + record.len());
    Given {
        line,
        factory,
        number,
        new,
        record,
        room,
    }
}

/// The jobs of one good book, the same from the same seed.
pub fn jobs(seed: u64) -> Jobs {
    let mut generator = Generator::new(seed, Kind::Wide);
    generator.jobs(&Jobs::new())
}

/// The book of these jobs.
pub fn book(jobs: &Jobs) -> Vec<u8> {
    entries(jobs).concat()
}

fn entries(jobs: &Jobs) -> Vec<Vec<u8>> {
    let entries = jobs.iter().map(|(&number, job)| entry(number, job));
    entries.collect()
}

/// The entry of a job, or of whatever stands in its place.
fn entry(number: u16, job: &[u8]) -> Vec<u8> {
    let mut entry = header(HEAD + job.len(), KIND);
    entry.extend(number.to_le_bytes());
    entry.extend(job);
    entry
}

/// How many instructions the jobs of a book of this length have, each some.
/// Lengths are even, and so is the number of jobs that is given; an odd one
/// more makes a length that is no multiple of 4.
fn counts(length: u32, jobs: u32) -> Vec<u32> {
    let jobs = jobs + length / 2 % 2;
    let heads = (HEAD as u32 + 4) * jobs;
    let part = |job: u32| (length - heads) / 4 * job / jobs;
    (0..jobs).map(|job| part(job + 1) - part(job)).collect()
}

/// A job in a book may name any word.
const ANY_WORD: [u8; 256] = {
    let mut words = [0; 256];
    let mut word = 0;
    while word < 256 {
        words[word] = word as u8;
        word += 1;
    }
    words
};

/// Good books.
impl Generator {
    /// The jobs of a book, at times under some numbers of the other one too;
    /// now and then so many that the book is as long as a length field can
    /// say, or longer.
    fn jobs(&mut self, other: &Jobs) -> Jobs {
        let counts = match self.random.one_in(250) {
            true => self.counts_of_a_long_book(),
            false => {
                let most = self.random.pick(&[1, 2, 3, 6, 12, 40]);
                vec![0; self.random.below(most + 1) as usize]
            }
        };
        let numbers = self.numbers(counts.len(), other);
        let jobs = counts.iter().map(|&count| match count {
            0 => self.job_on(&ANY_WORD),
            _ => self.job_of(count),
        });
        numbers.into_iter().zip(jobs).collect()
    }

    /// So many numbers: close together or far apart, at the first or the last
    /// ones or anywhere, at times all with the same first byte.
    fn numbers(&mut self, count: usize, other: &Jobs) -> BTreeSet<u16> {
        let few = count as u32 + 1;
        let limit = self.random.pick(&[few, 2 * few, 7 * few, LAST + 1]);
        let apart = match limit <= 256 && self.random.one_in(3) {
            true => 256,
            false => 1,
        };
        let highest = LAST - apart * (limit - 1).min(LAST);
        let any = self.random.below(highest + 1);
        let first = self.random.pick(&[0, highest, any]);
        let shared = self.random.pick(&[0, 0, 1, 2]);
        let others: Vec<u16> = other.keys().copied().collect();
        let mut numbers = BTreeSet::new();
        while numbers.len() < count {
            let own = first + apart * self.random.below(limit);
            match !others.is_empty() && self.random.below(4) < shared {
                true => numbers.insert(self.random.pick(&others)),
                false => numbers.insert(own as u16),
            };
        }
        numbers
    }

    fn counts_of_a_long_book(&mut self) -> Vec<u32> {
        let longer = 65_600 + 2 * self.random.below(1_500);
        let length = self.random.pick(&[65_534, 65_536, 65_538, longer]);
        let jobs = self.random.pick(&[260, 400, 1_000, 3_000]);
        counts(length, jobs)
    }

    /// A job of so many instructions.
    fn job_of(&mut self, count: u32) -> Vec<u8> {
        let places = 0..count - 1;
        let instructions = places.map(|place| self.instruction(place, count, &ANY_WORD));
        let mut program: Vec<_> = instructions.collect();
        program.push([0, 1, 0, 0]);
        job::record(&program.concat()).expect("so many make a job")
    }
}

/// Numbers and buffers.
impl Generator {
    /// A number that is there, mostly; or beside one that is, or equal to one
    /// in its lowest two bytes alone, or any.
    fn number_about(&mut self, jobs: &Jobs) -> u32 {
        let there: Vec<u32> = jobs.keys().map(|&number| u32::from(number)).collect();
        let any = self.random.below(LAST + 1);
        let there = match there.is_empty() {
            true => any,
            false => self.random.pick(&there),
        };
        let above = self.random.pick(&[1, 2, 255, 256, 32_768, 65_535]);
        match self.random.below(14) {
            0 => any,
            1 => self.far(),
            2 => there + (LAST + 1) * above,
            3 => self.random.pick(&[0, LAST, LAST + 1, u32::MAX]),
            4 => there.saturating_sub(1),
            5 => there + 1,
            6 => u32::from((there as u16).swap_bytes()),
            _ => there,
        }
    }

    /// A number for a new job: mostly one that the book does not have, above
    /// one that it may have.
    fn new_number(&mut self, jobs: &Jobs) -> u32 {
        let number = self.number_about(jobs);
        let from = number.saturating_sub(self.random.below(3));
        let there = |number: u32| u16::try_from(number).is_ok_and(|it| jobs.contains_key(&it));
        match self.random.below(5) {
            0 => number,
            _ => (from..=LAST).find(|&it| !there(it)).unwrap_or(number),
        }
    }

    /// A buffer's size, mostly as long as it takes; at times a byte shorter,
    /// somewhat longer, empty, of the old book's length or any.
    fn room(&mut self, old: usize, length: usize) -> usize {
        let any = self.random.below(2 * length as u32) as usize;
        let longer = length + 1 + self.random.below(40) as usize;
        match self.random.below(12) {
            0 | 1 => length - 1,
            2 | 3 => longer,
            4 => length + 1,
            5 => self.random.pick(&[0, 1, old, any]),
            _ => length,
        }
    }
}

/// Damaged books.
impl Generator {
    /// The book of these jobs, one in three damaged.
    fn book_of(&mut self, jobs: &Jobs) -> Vec<u8> {
        let mut entries = entries(jobs);
        if !self.random.one_in(3) {
            return entries.concat();
        }
        let times = self.random.pick(&[0, 1, 1, 1, 2, 3]);
        for _ in 0..times {
            self.damage_order(&mut entries);
        }
        let mut book = entries.concat();
        if times == 0 || self.random.one_in(8) {
            self.damage_book(&mut book);
        }
        book
    }

    /// Puts an entry out of its order, or damages one.
    fn damage_order(&mut self, entries: &mut Vec<Vec<u8>>) {
        let count = entries.len() as u32;
        if count == 0 {
            return;
        }
        let one = self.random.below(count) as usize;
        let any = self.random.below(count) as usize;
        let other = self.random.pick(&[one.max(1) - 1, any]);
        let number = entries[other].get(4..HEAD).map(<[u8]>::to_vec);
        match (self.random.below(12), number) {
            (0, _) => entries.swap(one, other),
            (1, _) => entries.insert(one, entries[other].clone()),
            (2 | 3, Some(number)) if entries[one].len() >= HEAD => {
                entries[one][4..HEAD].copy_from_slice(&number);
            }
            _ => self.damage_entry(&mut entries[one]),
        }
    }

    /// Makes an entry wrong, or perhaps only another one. What is cut too
    /// short already is cut once more.
    fn damage_entry(&mut self, entry: &mut Vec<u8>) {
        let length = entry.len() as u32;
        if entry.len() < HEAD + 8 {
            entry.truncate(self.random.below(length + 1) as usize);
            return;
        }
        match self.random.below(12) {
            0 => self.damage_record(entry),
            1 => entry[2] = self.random.pick(&[0, 1, 2, 3, 4, 6, 255]),
            2 => entry[3] = self.random.pick(&[1, 5, 255]),
            3 => entry[4 + self.random.below(2) as usize] = self.random.byte(),
            4 => entry[HEAD + 2] = self.random.pick(&[0, 1, 2, 3, 4, 5, 255]),
            5 | 6 => {
                // Longer or shorter than its job says, as its length has it.
                let by = self.random.pick(&[1, 2, 4, 8]);
                let length = self.random.pick(&[length - by, length + by]);
                entry.resize(length as usize, 0);
                set_length(entry);
            }
            7 => {
                let field = self.random.below(length + 8) as u16;
                let at = self.random.pick(&[0, HEAD]);
                entry[at..at + 2].copy_from_slice(&field.to_le_bytes());
            }
            _ => {
                let mut job = entry.split_off(HEAD);
                self.damage_job(&mut job);
                entry.extend(job);
                set_length(entry);
            }
        }
    }

    /// Changes, inserts or removes a byte anywhere, or cuts the book anywhere
    /// or near its end, or adds some bytes to it.
    fn damage_book(&mut self, book: &mut Vec<u8>) {
        let length = book.len() as u32;
        let place = self.random.below(length.max(1)) as usize;
        let few = 1 + self.random.below(20) as usize;
        match self.random.below(8) {
            0..=2 if length > 0 => book[place] = self.random.byte(),
            3 if length > 0 => book[place] ^= 1 << self.random.below(8),
            4 if length > 0 => _ = book.remove(place),
            5 => book.insert(place, self.random.byte()),
            6 => book.truncate(self.random.pick(&[place, book.len().saturating_sub(few)])),
            _ => book.resize(book.len() + few, 0),
        }
    }
}
