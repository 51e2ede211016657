//! Job records: the kinds that carry a program, each with its own range of
//! counts (request 04). One checker reads a record for whatever is allowed,
//! so that what the old writer says of it can be told as well. What it takes
//! is gone through by instruction, the same for begin and the plain engine.

use crate::engine::{header, kind_of, refused, refused_at, Engine, Instruction, Refusal};
use std::ops::RangeInclusive;

/// A kind of job record: its number, and how many instructions it carries.
#[derive(Clone, PartialEq, Eq, Debug)]
pub struct JobKind {
    pub number: u16,
    pub counts: RangeInclusive<usize>,
}

/// Document 01's kind.
const SHORT: JobKind = JobKind {
    number: 1,
    counts: 1..=32,
};

/// Request 04's kind.
const LONG: JobKind = JobKind {
    number: 4,
    counts: 33..=Engine::INSTRUCTIONS,
};

/// What the old writer takes, which is document 01's.
pub const OLD: &[JobKind] = &[SHORT];

/// What this one takes and writes. A count is of one kind at most, so that
/// there is one encoding.
pub const NOW: &[JobKind] = &[SHORT, LONG];

/// The program of a job record where these kinds are allowed: refused 5 for
/// its length field, then 6, then 5 for its count. What is said after that
/// goes by the program alone, and not by the kind.
pub fn program<'a>(record: &'a [u8], allowed: &[JobKind]) -> Result<&'a [Instruction], Refusal> {
    let number = kind_of(record)?;
    let Some(kind) = allowed.iter().find(|kind| kind.number == number) else {
        return refused(6);
    };
    match instructions(&record[4..]) {
        Some(program) if kind.counts.contains(&program.len()) => Ok(program),
        _ => refused(5),
    }
}

/// The program of a job record that may run under a lock with these guarded
/// words: refused as by `program`, then for the lowest faulty instruction, 7
/// before 8 there.
pub fn taken(record: &[u8], guarded: impl Fn(usize) -> bool) -> Result<&[Instruction], Refusal> {
    let program = program(record, NOW)?;
    for (place, &instruction) in program.iter().enumerate() {
        if !well_formed(instruction, place, program.len()) {
            return refused_at(7, place);
        }
        if named_word(instruction).is_some_and(|word| !guarded(word)) {
            return refused_at(8, place);
        }
    }
    Ok(program)
}

/// The job record of a program's bytes, of the kind that its count picks;
/// none where they are no program by their length.
pub fn record(program: &[u8]) -> Option<Vec<u8>> {
    let count = instructions(program)?.len();
    let kind = NOW.iter().find(|kind| kind.counts.contains(&count))?;
    let mut record = header(4 + program.len(), kind.number);
    record.extend(program);
    Some(record)
}

/// The instructions that these bytes are, if a whole number.
fn instructions(bytes: &[u8]) -> Option<&[Instruction]> {
    let (whole, part) = bytes.as_chunks();
    part.is_empty().then_some(whole)
}

/// Whether the instruction at this place of a job of n may stand there.
fn well_formed([op, a, b, c]: Instruction, place: usize, n: usize) -> bool {
    let register = |field: u8| usize::from(field) < Engine::REGISTERS;
    let right = match op {
        0 => a <= 1 && b == 0 && c == 0,
        1 => register(a),
        2 | 3 => register(a) && c == 0,
        4 => register(a) && register(b),
        5 | 6 => register(a) && register(b) && c == 0,
        7 => register(a) && register(b) && c >= 1 && place + 1 + usize::from(c) < n,
        8..=255 => false,
    };
    right && (op == 0 || place + 1 < n)
}

/// The word that a load, store or cam names.
fn named_word([op, _, b, c]: Instruction) -> Option<usize> {
    match op {
        2 | 3 => Some(usize::from(b)),
        4 => Some(usize::from(c)),
        _ => None,
    }
}
