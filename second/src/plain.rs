//! The plain engine (request 05): runs a job record at once on two lent
//! tables, the words' values and their guards, of which only values are
//! written. There are no locks, sheets or steps: a lock is any number, and a
//! word is the lock's where its guard equals the number.

use crate::alone::{self, Ended};
use crate::engine::{refused, Engine, Instruction, Refusal};
use crate::job;

/// Runs a job record under this lock; the values become those at its end. A
/// refused call alters none of them.
pub fn run(values: &mut [u32], guards: &[u8], lock: u32, record: &[u8]) -> Result<Ended, Refusal> {
    let program = taken(values, guards, lock, record)?;
    Ok(alone::run(program, values))
}

/// The program that runs: refused 16 for the tables, before the record is
/// looked at, then as a begin's record is.
fn taken<'a>(
    values: &[u32],
    guards: &[u8],
    lock: u32,
    record: &'a [u8],
) -> Result<&'a [Instruction], Refusal> {
    if values.len() != guards.len() || values.len() > Engine::WORDS {
        return refused(16);
    }
    under(guards, lock, record)
}

/// What the record is taken for under this lock, whatever the values are.
fn under<'a>(guards: &[u8], lock: u32, record: &'a [u8]) -> Result<&'a [Instruction], Refusal> {
    let guarded = |word: usize| {
        let guard = guards.get(word);
        guard.is_some_and(|&guard| u32::from(guard) == lock)
    };
    job::taken(record, guarded)
}

/// Slips in the plain engine. The tests make it wrong on purpose with one of
/// them, to see that it is told from the right one.
#[derive(Clone, Copy, PartialEq, Eq, Debug)]
pub enum Wrong {
    /// What is passed over counts as executed.
    PassedOverCounts,
    /// The halt does not count.
    HaltNotCounted,
    /// A cam writes, whatever the word holds.
    CamAlwaysWrites,
    /// A word of another lock may be named.
    AnyGuard,
    /// The lock number is cut to a byte.
    LockCutToByte,
    /// The instructions before a faulty one are run before it is refused.
    RunUpToTheFault,
    /// Tables of 65 words are taken.
    TablesOf65,
    /// Tables without words are refused.
    NoEmptyTables,
    /// Of tables that differ in length the shorter one counts.
    ShorterTable,
    /// The record is looked at before the tables.
    RecordFirst,
}

impl Wrong {
    /// All of them.
    pub const ALL: [Wrong; 10] = [
        Wrong::PassedOverCounts,
        Wrong::HaltNotCounted,
        Wrong::CamAlwaysWrites,
        Wrong::AnyGuard,
        Wrong::LockCutToByte,
        Wrong::RunUpToTheFault,
        Wrong::TablesOf65,
        Wrong::NoEmptyTables,
        Wrong::ShorterTable,
        Wrong::RecordFirst,
    ];

    /// Runs a job record as `run` does, but for the slip.
    pub fn run(
        self,
        values: &mut [u32],
        guards: &[u8],
        lock: u32,
        record: &[u8],
    ) -> Result<Ended, Refusal> {
        let shorter = values.len().min(guards.len());
        match self {
            Wrong::PassedOverCounts => {
                let program = taken(values, guards, lock, record)?;
                Ok(run_counting_all(program, values))
            }
            Wrong::HaltNotCounted => {
                let Ended { yes, executed } = run(values, guards, lock, record)?;
                let executed = executed - 1;
                Ok(Ended { yes, executed })
            }
            Wrong::CamAlwaysWrites => {
                let program = taken(values, guards, lock, record)?;
                Ok(alone::run(&stores_for_cams(program), values))
            }
            Wrong::AnyGuard => run(values, &vec![0; guards.len()], 0, record),
            Wrong::LockCutToByte => run(values, guards, lock % 256, record),
            Wrong::RunUpToTheFault => run_up_to_the_fault(values, guards, lock, record),
            Wrong::TablesOf65 if (values.len(), guards.len()) == (65, 65) => {
                run(&mut values[..64], &guards[..64], lock, record)
            }
            Wrong::NoEmptyTables if values.is_empty() => refused(16),
            Wrong::TablesOf65 | Wrong::NoEmptyTables => run(values, guards, lock, record),
            Wrong::ShorterTable => run(&mut values[..shorter], &guards[..shorter], lock, record),
            Wrong::RecordFirst => {
                under(guards, lock, record)?;
                run(values, guards, lock, record)
            }
        }
    }
}

/// Runs a job alone, but counts all instructions up to the halt.
fn run_counting_all(program: &[Instruction], values: &mut [u32]) -> Ended {
    let mut left = 0;
    let ended = alone::run_watched(program, values, |rest, _| left = rest.len());
    let executed = (program.len() - left) as u32;
    Ended { executed, ..ended }
}

/// The same program with a store in place of each cam.
fn stores_for_cams(program: &[Instruction]) -> Vec<Instruction> {
    let stores = program.iter().map(|&instruction| match instruction {
        [4, _, b, c] => [3, b, c, 0],
        other => other,
    });
    stores.collect()
}

/// Runs a job record, if it has a faulty instruction up to that place.
fn run_up_to_the_fault(
    values: &mut [u32],
    guards: &[u8],
    lock: u32,
    record: &[u8],
) -> Result<Ended, Refusal> {
    let told = run(values, guards, lock, record);
    if let (Err(no), Ok(program)) = (told, job::program(record, job::NOW)) {
        alone::run(&program[..no.place as usize], values);
    }
    told
}
