//! Jobs that a person can read and write: a line an instruction, as
//! docs/JOBS.md has them. A [`Job`] is read from that notation, from a record
//! or made by a [`Builder`], and shown in the notation. It holds only what
//! begin's refusals 5, 6 and 7 accept, with words 0 to 63, which are all that
//! a unit can have.
//!
//! ```
//! use chantgarden::job::{Faults, Job};
//!
//! let job: Job = "load r0 w0   # word 0 plus 1\nset r1 1\nadd r0 r1\nstore r0 w0\nhalt yes".parse()?;
//! assert_eq!(job.record()[..8], [24, 0, 1, 0, 2, 0, 0, 0]);
//! assert_eq!(job.to_string(), "load r0 w0\nset r1 1\nadd r0 r1\nstore r0 w0\nhalt yes");
//! assert_eq!(Job::from_record(job.record())?, job);
//!
//! let faults = "laod r0 w0\nhalt yes".parse::<Job>().unwrap_err();
//! assert!(faults.to_string().starts_with("line 1: `laod` stands where an instruction may stand"));
//! # Ok::<(), Faults>(())
//! ```

mod build;
mod bytes;
mod draft;
mod fault;
mod parse;
#[cfg(test)]
mod tests;

pub use build::Builder;
pub use fault::{At, Fault, Faults};

use crate::{Engine, Refusal};
use std::fmt;
use std::str::FromStr;

/// The most instructions of a job.
pub const INSTRUCTIONS: usize = 64;
/// The most instructions of a record of kind 1; one of kind 4 has more.
const SHORT: usize = 32;
/// The registers.
const REGISTERS: u8 = 4;
/// The most words of a unit.
const WORDS: u8 = 64;

/// An instruction, its operands in the notation's order. It is shown in the
/// notation.
#[derive(Clone, Copy, PartialEq, Eq, Hash, Debug)]
pub enum Instruction {
    /// `halt yes` or `halt no`: the job's answer.
    Halt(bool),
    /// `set r1 500`: register 1 becomes 500.
    Set(u8, u16),
    /// `load r0 w2`: register 0 becomes word 2.
    Load(u8, u8),
    /// `store r0 w2`: word 2 becomes register 0.
    Store(u8, u8),
    /// `cam w2 r0 r1`: if word 2 equals register 0 it becomes register 1.
    Cam(u8, u8, u8),
    /// `add r0 r1`: register 0 becomes register 0 plus register 1.
    Add(u8, u8),
    /// `sub r0 r1`: register 0 becomes register 0 less register 1.
    Sub(u8, u8),
    /// `skip 2 if r0 = r1`: if registers 0 and 1 are equal, pass over the next
    /// 2 instructions.
    Skip(u8, u8, u8),
}

impl Instruction {
    /// The word that it names.
    pub fn word(self) -> Option<u8> {
        match self {
            Instruction::Load(_, word) | Instruction::Store(_, word) => Some(word),
            Instruction::Cam(word, ..) => Some(word),
            _ => None,
        }
    }

    /// The steps that it takes at most: a cam that changes nothing takes 2.
    pub fn steps(self) -> u32 {
        match self {
            Instruction::Load(..) => 2,
            Instruction::Store(..) | Instruction::Cam(..) => 3,
            _ => 1,
        }
    }
}

impl fmt::Display for Instruction {
    fn fmt(&self, out: &mut fmt::Formatter<'_>) -> fmt::Result {
        match self {
            Instruction::Halt(true) => write!(out, "halt yes"),
            Instruction::Halt(false) => write!(out, "halt no"),
            Instruction::Set(register, number) => write!(out, "set r{register} {number}"),
            Instruction::Load(register, word) => write!(out, "load r{register} w{word}"),
            Instruction::Store(register, word) => write!(out, "store r{register} w{word}"),
            Instruction::Cam(word, old, new) => write!(out, "cam w{word} r{old} r{new}"),
            Instruction::Add(register, other) => write!(out, "add r{register} r{other}"),
            Instruction::Sub(register, other) => write!(out, "sub r{register} r{other}"),
            Instruction::Skip(over, one, other) => {
                write!(out, "skip {over} if r{one} = r{other}")
            }
        }
    }
}

/// A job whose record begin's refusals 5, 6 and 7 accept.
#[derive(Clone, PartialEq, Eq, Hash, Debug)]
pub struct Job {
    program: Vec<Instruction>,
    record: Vec<u8>,
}

impl Job {
    /// A job without instructions yet, to be built by methods.
    pub fn build() -> Builder {
        Builder::default()
    }

    /// The job of these instructions.
    pub fn new(program: &[Instruction]) -> Result<Job, Faults> {
        bytes::job(&bytes::record(program))
    }

    /// The job of a record; every fault of a bad one is told, first the one
    /// that begin would refuse it for.
    pub fn from_record(record: &[u8]) -> Result<Job, Faults> {
        bytes::job(record)
    }

    /// Its record, of kind 1 up to 32 instructions and of kind 4 from 33 on.
    pub fn record(&self) -> &[u8] {
        &self.record
    }

    /// Its instructions, one at least and 64 at most.
    pub fn instructions(&self) -> &[Instruction] {
        &self.program
    }

    /// The steps that its run takes at most, on whatever words: the longest
    /// way through its skips.
    pub fn longest_run(&self) -> u32 {
        // The longest way from each instruction to a halt, the last one first.
        let mut ways: Vec<u32> = Vec::new();
        for &instruction in self.program.iter().rev() {
            let after = |over: usize| ways[ways.len() - 1 - over];
            let rest = match instruction {
                Instruction::Halt(_) => 0,
                Instruction::Skip(over, ..) => after(0).max(after(usize::from(over))),
                _ => after(0),
            };
            ways.push(instruction.steps() + rest);
        }
        ways.last().copied().unwrap_or_default()
    }

    /// The steps of a try that runs this job as its own, at most: four that
    /// lead to the run, the run, its mark and the release.
    pub fn longest_try(&self) -> u32 {
        4 + self.longest_run() + 2
    }

    /// The instructions that begin would refuse with 8 under this lock of this
    /// setup, each with what is wrong: they name words that the lock doesn't
    /// guard, or that the setup doesn't have. None: begin would take it. The
    /// setup may itself be refused, or have no such lock (2).
    pub fn under(&self, setup: &[u8], lock: u32) -> Result<Vec<Fault>, Refusal> {
        let mut engine = Engine::blank();
        engine.setup(setup)?;
        let _ = engine.read_lock(lock)?;
        let mut faults = Vec::new();
        for (place, instruction) in self.program.iter().enumerate() {
            let Some(word) = instruction.word() else {
                continue;
            };
            let guard = engine.read_word(u32::from(word)).ok().map(|it| it.guard);
            if guard != Some(lock) {
                let words = fault::unguarded(&instruction.to_string(), word, lock, guard);
                faults.push(Fault::refused(8, At::Instruction(place), words));
            }
        }
        Ok(faults)
    }
}

/// The notation: a line an instruction, with no newline at its end.
impl fmt::Display for Job {
    fn fmt(&self, out: &mut fmt::Formatter<'_>) -> fmt::Result {
        for (place, instruction) in self.program.iter().enumerate() {
            let before = if place == 0 { "" } else { "\n" };
            write!(out, "{before}{instruction}")?;
        }
        Ok(())
    }
}

/// Reads the notation; every fault of a text is told, in the order of lines.
impl FromStr for Job {
    type Err = Faults;

    fn from_str(text: &str) -> Result<Job, Faults> {
        parse::job(text)
    }
}

/// The record, so that a job can be lent wherever a record can.
impl AsRef<[u8]> for Job {
    fn as_ref(&self) -> &[u8] {
        &self.record
    }
}
