//! The job engine for Rust programs: an [`Engine`] that owns its numbers, over
//! the proved archive. Every call, with every number and every record, ends
//! in an answer or a [`Refusal`], and a refusal changes nothing.
//!
//! ```
//! use chantgarden::{Answer, Engine, Job};
//!
//! // One lock; it guards the only word, which holds 5. The job doubles it.
//! let setup = [15, 0, 2, 0, 1, 1, 0, 5, 0, 0, 0, 0, 0, 0, 0];
//! let job: Job = "load r0 w0\nadd r0 r0\nstore r0 w0\nhalt yes".parse()?;
//! let mut engine = Engine::blank();
//! engine.setup(&setup)?;
//! engine.begin(0, 0, job.record())?;
//! while engine.step(0).is_ok() {}
//! assert_eq!(engine.collect(0)?.answer, Answer::RanYes);
//! assert_eq!(engine.read_word(0)?.value, 10);
//! # Ok::<(), Box<dyn std::error::Error>>(())
//! ```
//!
//! A [`Recorder`] makes the same calls and hands out a record of each, from
//! which they can be made again. A [`Job`] is read and written as docs/JOBS.md
//! has it. Numbered jobs stand in books ([`book`]). No answer is dropped unread
//! without a warning of the compiler:
//!
//! ```compile_fail
//! #![deny(unused_must_use)]
//! chantgarden::Engine::blank().step(0);
//! ```
#![deny(unsafe_code)]
#![warn(missing_docs)]

pub mod book;
pub mod job;
#[allow(unsafe_code, missing_docs)]
pub mod lent;
mod record;
#[cfg(test)]
mod tests;

pub use job::Job;
pub use record::Recorder;
use std::error::Error;
use std::fmt;

/// A refusal: its number in document 01's table, and its place.
#[derive(Clone, Copy, PartialEq, Eq, Hash, Debug)]
pub struct Refusal {
    /// The number, from 1 on.
    pub number: u32,
    /// Where the fault lies, for the refusals that tell it; else 0.
    pub place: u32,
}

impl Refusal {
    /// When the refusal is given, in the documents' words.
    pub fn words(self) -> &'static str {
        match self.number {
            1 => "worker above 7",
            2 => "lock not below L",
            3 => "worker under way",
            4 => "answer not collected",
            5 => "record length wrong",
            6 => "kind is none that this call takes",
            7 => "instruction badly formed, or the last is no halt",
            8 => "a load, store or cam names a word this lock doesn't guard, or no word",
            9 => "the lock is free with turn 67,108,864",
            11 => "worker idle",
            12 => "L, W, a guard or a turn outside its range, or blank state",
            13 => "lent buffer shorter than the record, or than the book",
            14 => "sheet above 31 or free",
            15 => "a lock is held",
            16 => "word not below W",
            17 => "a record that makes no call",
            18 => "book malformed",
            19 => "number not there",
            20 => "number present already",
            22 => "fewer numbers lent than a state has",
            _ => "a refusal that this text doesn't know",
        }
    }
}

impl fmt::Display for Refusal {
    fn fmt(&self, out: &mut fmt::Formatter<'_>) -> fmt::Result {
        let Refusal { number, place } = self;
        write!(out, "refused {number} at place {place}: {}", self.words())
    }
}

impl Error for Refusal {}

/// What a finished try answers.
#[must_use = "an unread answer is lost"]
#[derive(Clone, Copy, PartialEq, Eq, Hash, Debug)]
pub enum Answer {
    /// The job ran, and its halt says yes.
    RanYes,
    /// The job ran, and its halt says no.
    RanNo,
    /// The job was not run; no more is said. A helper that releases a lock at
    /// its last turn is told this, and its next begin there is refused 9.
    NotTaken,
    /// The job was not run, and its lock is free at turn 67,108,864: until the
    /// next setup no begin there is accepted.
    Worn,
}

/// What collect hands out.
#[must_use = "an unread answer is lost"]
#[derive(Clone, Copy, PartialEq, Eq, Hash, Debug)]
pub struct Collected {
    /// The try's answer.
    pub answer: Answer,
    /// The accepted steps since begin.
    pub steps: u32,
    /// The entries of the log that this worker's commits were the first to
    /// fill in this try, on its own job's sheet or on the one that it helped:
    /// how much of the load it carried.
    pub filled: u32,
}

/// A word.
#[must_use]
#[derive(Clone, Copy, PartialEq, Eq, Hash, Debug)]
pub struct Word {
    /// Its present value.
    pub value: u32,
    /// How often it changed since setup.
    pub count: u32,
    /// The lock that guards it.
    pub guard: u32,
}

/// Whether a lock is held.
#[must_use]
#[derive(Clone, Copy, PartialEq, Eq, Hash, Debug)]
pub enum Holder {
    /// It is free.
    Free,
    /// This sheet holds it.
    Sheet(u32),
}

/// A lock word.
#[must_use]
#[derive(Clone, Copy, PartialEq, Eq, Hash, Debug)]
pub struct LockWord {
    /// How often the lock was won, from the setup's starting turn on.
    pub turn: u32,
    /// Who holds it.
    pub holder: Holder,
}

/// An engine: workers 0 to 7 that share words under locks, one step at a
/// time. It owns its numbers, which hold no pointer: a clone is a second
/// engine in the same state. Numbers too large are refused like any other.
#[derive(Clone)]
pub struct Engine {
    numbers: Box<[u32]>,
}

impl Engine {
    /// The most bytes of a job record.
    pub const JOB_BYTES: usize = 260;
    /// The most bytes of a setup record.
    pub const SETUP_BYTES: usize = 390;
    /// The most bytes of a call record.
    pub const CALL_BYTES: usize = 264;

    /// The blank state: no locks, no words, idle workers, free sheets.
    pub fn blank() -> Engine {
        let numbers = vec![0; lent::NUMBERS].into_boxed_slice();
        Engine { numbers }
    }

    /// A fresh state from a setup record; a refused one gives the blank state.
    pub fn setup(&mut self, record: &[u8]) -> Result<(), Refusal> {
        accepted(lent::setup(&mut self.numbers, record))
    }

    /// Gives an idle worker a job record to try under a lock.
    pub fn begin(&mut self, worker: u32, lock: u32, record: &[u8]) -> Result<(), Refusal> {
        accepted(lent::begin(&mut self.numbers, worker, lock, record))
    }

    /// One step of a worker's try. It is refused with number 4 once the try
    /// has an answer to collect, which is so after at most 196 steps.
    pub fn step(&mut self, worker: u32) -> Result<(), Refusal> {
        accepted(lent::step(&mut self.numbers, worker))
    }

    /// Hands out a finished worker's answer and makes the worker idle.
    pub fn collect(&mut self, worker: u32) -> Result<Collected, Refusal> {
        let told = lent::collect(&mut self.numbers, worker);
        accept(told.number, told.place)?;
        let answer = match told.answer {
            1 => Answer::RanYes,
            2 => Answer::RanNo,
            4 => Answer::Worn,
            // The archive gives no number but 3 here.
            _ => Answer::NotTaken,
        };
        Ok(Collected {
            answer,
            steps: told.steps,
            filled: told.filled,
        })
    }

    /// Makes a worker that isn't idle idle, at any point of its try. A held
    /// lock stays held; what collect would have told is lost.
    pub fn drop_worker(&mut self, worker: u32) -> Result<(), Refusal> {
        accepted(lent::drop(&mut self.numbers, worker))
    }

    /// Tells a word's value, its count of changes and its guard.
    pub fn read_word(&self, word: u32) -> Result<Word, Refusal> {
        let told = lent::read_word(&self.numbers, word);
        accept(told.number, told.place)?;
        Ok(Word {
            value: told.value,
            count: told.count,
            guard: told.guard,
        })
    }

    /// Tells a lock's turn, and which sheet holds it.
    pub fn read_lock(&self, lock: u32) -> Result<LockWord, Refusal> {
        let told = lent::read_lock(&self.numbers, lock);
        accept(told.number, told.place)?;
        let turn = told.turn;
        let holder = match told.held {
            0 => Holder::Free,
            _ => Holder::Sheet(told.sheet),
        };
        Ok(LockWord { turn, holder })
    }

    /// Writes the job record of a sheet in use into the first bytes of the
    /// buffer and tells how many; the bytes after them don't change.
    pub fn show(&self, sheet: u32, buffer: &mut [u8]) -> Result<usize, Refusal> {
        wrote(lent::show(&self.numbers, sheet, buffer))
    }

    /// Writes the setup record of the present values and turns into the
    /// first bytes of the buffer and tells how many.
    pub fn park(&self, buffer: &mut [u8]) -> Result<usize, Refusal> {
        wrote(lent::park(&self.numbers, buffer))
    }
}

/// How a job ended that the plain engine ran.
#[must_use]
#[derive(Clone, Copy, PartialEq, Eq, Hash, Debug)]
pub struct Ran {
    /// Whether its halt says yes.
    pub yes: bool,
    /// The instructions executed: the halt counts, those passed over don't.
    pub executed: u32,
}

/// Runs a job record at once, alone, on words of the caller's own: their
/// values, which the job changes, and the lock that guards each. It answers
/// and leaves what a worker of an [`Engine`] does that is stepped alone on a
/// free lock. A refused job changes no value.
pub fn plain(values: &mut [u32], guards: &[u8], lock: u32, record: &[u8]) -> Result<Ran, Refusal> {
    let told = lent::plain(values, guards, lock, record);
    accept(told.number, told.place)?;
    Ok(Ran {
        yes: told.answer == 1,
        executed: told.executed,
    })
}

impl Default for Engine {
    fn default() -> Engine {
        Engine::blank()
    }
}

impl fmt::Debug for Engine {
    fn fmt(&self, out: &mut fmt::Formatter<'_>) -> fmt::Result {
        out.debug_struct("Engine").finish_non_exhaustive()
    }
}

fn accept(number: u32, place: u32) -> Result<(), Refusal> {
    match number {
        0 => Ok(()),
        _ => Err(Refusal { number, place }),
    }
}

fn accepted(told: lent::Reply) -> Result<(), Refusal> {
    accept(told.number, told.place)
}

fn wrote(told: lent::Wrote) -> Result<usize, Refusal> {
    accept(told.number, told.place)?;
    Ok(told.length as usize)
}
