//! The record of each call that is made: the archive's writer held against
//! the second program's.

use crate::edges::SETUP;
use crate::told::{in_buffer, wrote, Told};
use chantgarden::lent::{self, Wrote};
use second::engine::{Engine, Refusal};
use second::files::call_record;
use second::generate::Random;
use second::script::Call;

/// A writer of call records: call, worker, lock, job record and buffer.
pub type Writer = fn(u32, u32, u32, &[u8], &mut [u8]) -> Wrote;

/// Numbers of no call.
const NO_CALLS: [u32; 5] = [4, 5, 255, 256, u32::MAX];
/// Locks and job records that a step, collect or drop does not look at.
const UNUSED: [(u32, &[u8]); 3] = [(0, &[]), (1, &[8, 0, 1, 0, 0, 1, 0, 0]), (300, &SETUP)];

/// What differs: the call, what the second program told and what the archive.
pub type Differs = (String, Told, Told);

/// The two writers.
pub struct Records {
    pub writer: Writer,
    random: Random,
    /// The second program's engine with idle workers and a lock 0: it tells
    /// why bytes are no job record.
    idle: Engine,
    /// How many were refused with each number; at 0 those written.
    pub told: [u64; 32],
}

impl Records {
    pub fn new() -> Records {
        let mut idle = Engine::blank();
        idle.setup(&SETUP).expect("it is a setup record");
        Records {
            writer: lent::record,
            random: Random::new(0),
            idle,
            told: [0; 32],
        }
    }

    pub fn count(&self) -> u64 {
        self.told.iter().sum()
    }

    /// Both write the record of a call, where it can have one, in a buffer
    /// filled with this byte. Now and then the call's number is of none.
    pub fn compare(&mut self, call: &Call, fill: u8) -> Result<(), Differs> {
        let (unused_lock, unused) = self.random.pick(&UNUSED);
        let (mut number, worker, lock, job) = match call {
            Call::Begin {
                worker,
                lock,
                record,
            } => (lent::BEGIN, *worker, *lock, &record[..]),
            Call::Step { worker, .. } => (lent::STEP, *worker, unused_lock, unused),
            Call::Collect(worker) => (lent::COLLECT, *worker, unused_lock, unused),
            Call::Drop(worker) => (lent::DROP, *worker, unused_lock, unused),
            _ => return Ok(()),
        };
        if self.random.one_in(16) {
            number = self.random.pick(&NO_CALLS);
        }
        let record = self.second(number, call, job);
        let size = self.size(record.as_ref().map_or(8, Vec::len));
        let second = in_buffer(fill, size, |lent| {
            wrote(record.and_then(|it| put(&it, lent)))
        });
        let writer = self.writer;
        let archive = in_buffer(fill, size, |lent| writer(number, worker, lock, job, lent));
        if second != archive {
            let asked = format!("{call}: record of call {number}, buffer of {size} bytes");
            return Err((asked, second, archive));
        }
        self.told[second.number() as usize % 32] += 1;
        Ok(())
    }

    /// The second program's record.
    fn second(&mut self, number: u32, call: &Call, job: &[u8]) -> Result<Vec<u8>, Refusal> {
        if number > lent::DROP {
            return refused(17);
        }
        match call_record(call) {
            Some(record) => Ok(record),
            None => Err(self.idle.begin(0, 0, job).expect_err("it is no job record")),
        }
    }

    /// The size of a buffer: a record's, a byte more or less, or any, up to
    /// somewhat more than the longest record's.
    fn size(&mut self, record: usize) -> usize {
        let longest = 8 + 4 * Engine::INSTRUCTIONS as u32;
        let any = self.random.below(longest + 24) as usize;
        self.random.pick(&[record, record + 1, record - 1, any])
    }
}

fn refused<T>(number: u32) -> Result<T, Refusal> {
    Err(Refusal { number, place: 0 })
}

/// Puts a record into the first bytes of a buffer, where it has room.
fn put(record: &[u8], buffer: &mut [u8]) -> Result<usize, Refusal> {
    match buffer.get_mut(..record.len()) {
        None => refused(13),
        Some(first) => {
            first.copy_from_slice(record);
            Ok(record.len())
        }
    }
}

#[cfg(test)]
mod tests {
    use super::*;
    use crate::{one_history, Pair};

    /// Writers with one slip each.
    const WRONG: [(&str, Writer); 11] = [
        ("worker for lock", |call, worker, lock, job, buffer| {
            lent::record(call, lock, worker, job, buffer)
        }),
        ("cut off for 255", |call, worker, lock, job, buffer| {
            lent::record(call, worker % 256, lock % 256, job, buffer)
        }),
        ("drop for no call", |call, worker, lock, job, buffer| {
            lent::record(call.min(3), worker, lock, job, buffer)
        }),
        ("a byte more room", |call, worker, lock, job, buffer| {
            let room = buffer.len().saturating_sub(1);
            lent::record(call, worker, lock, job, &mut buffer[..room])
        }),
        ("a lock of a step", |call, worker, lock, job, buffer| {
            let told = lent::record(call, worker, lock, job, buffer);
            if (told.number, call) == (0, lent::STEP) {
                buffer[6] = lock as u8;
            }
            told
        }),
        ("a later byte", |call, worker, lock, job, buffer| {
            let told = lent::record(call, worker, lock, job, buffer);
            if let (0, Some(byte)) = (told.number, buffer.get_mut(told.length as usize)) {
                *byte = 0;
            }
            told
        }),
        ("5 for 6", |call, worker, lock, job, buffer| {
            let told = lent::record(call, worker, lock, job, buffer);
            let number = told.number - u32::from(told.number == 6);
            Wrote { number, ..told }
        }),
        ("the old kind alone", |call, worker, lock, job, buffer| {
            let (number, place, length) = (6, 0, 0);
            match (call, job.get(2)) {
                (lent::BEGIN, Some(4)) => Wrote {
                    number,
                    place,
                    length,
                },
                _ => lent::record(call, worker, lock, job, buffer),
            }
        }),
        ("either kind of 33", |call, worker, lock, job, buffer| {
            let mut job = job.to_vec();
            if job.len() == 4 + 4 * 33 && job[2] == 1 {
                job[2] = 4;
            }
            lent::record(call, worker, lock, &job, buffer)
        }),
        ("one byte of length", |call, worker, lock, job, buffer| {
            let told = lent::record(call, worker, lock, job, buffer);
            if told.number == 0 {
                buffer[1] = 0;
            }
            told
        }),
        ("13, written", |call, worker, lock, job, buffer| {
            let told = lent::record(call, worker, lock, job, buffer);
            if let (13, Some(byte)) = (told.number, buffer.first_mut()) {
                *byte = 0;
            }
            told
        }),
    ];

    #[test]
    fn a_wrong_record() {
        for (name, writer) in WRONG {
            let mut pair = Pair::new(None);
            pair.records.writer = writer;
            let found = (0..20).try_for_each(|seed| one_history(&mut pair, seed, u64::MAX));
            assert!(found.is_err(), "{name} is not noticed");
        }
    }
}
