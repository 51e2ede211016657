//! Calls at the edges that random ones don't come to, or not to all of them:
//! records longer than their length field can say, long buffers, and jobs at
//! the edges of their kinds.

use crate::pair::{Difference, Pair};
use second::engine::Engine;
use second::script::{Call, LONGEST_BYTES};

/// One lock, one word.
pub const SETUP: [u8; 15] = [15, 0, 2, 0, 1, 1, 0, 5, 0, 0, 0, 0, 0, 0, 0];
/// Lengths around those that the length field can say, and that it says
/// wrapped around: as if they were 8, 15 or 260.
pub const LENGTHS: [usize; 10] = [
    0, 3, 4, 65_534, 65_535, 65_536, 65_540, 65_544, 65_551, 65_796,
];

pub fn compare(pair: &mut Pair) -> Result<(), Difference> {
    compare_lengths(pair)?;
    compare_jobs(pair)?;
    pair.compare(&Call::Setup(SETUP.to_vec()))?;
    for size in [0, 14, 15, 16, 100_000] {
        pair.compare(&Call::Park { size })?;
        pair.compare(&Call::Show { sheet: 0, size })?;
    }
    pair.compare_sheets()
}

/// A record of this kind and length, all zeros otherwise; cut off where it is
/// shorter than its head. All of a job's instructions halt.
pub fn zeros(kind: u8, length: usize) -> Vec<u8> {
    let [low, high] = (length as u16).to_le_bytes();
    let mut record = vec![low, high, kind, 0];
    record.resize(length, 0);
    record
}

fn compare_lengths(pair: &mut Pair) -> Result<(), Difference> {
    for kind in [1, 2, 4] {
        for length in LENGTHS {
            let record = zeros(kind, length);
            pair.compare(&Call::Setup(SETUP.to_vec()))?;
            for worker in [0, 8] {
                for lock in [0, 1] {
                    let record = record.clone();
                    pair.compare(&Call::Begin {
                        worker,
                        lock,
                        record,
                    })?;
                }
            }
            pair.compare(&Call::Setup(record))?;
            pair.compare_words()?;
        }
    }
    Ok(())
}

/// Jobs of every length up to one beyond the longest job, of the kinds that
/// carry jobs and of those around them. A job that is taken is shown in
/// buffers of about its length, and taken off its sheet again.
fn compare_jobs(pair: &mut Pair) -> Result<(), Difference> {
    pair.compare(&Call::Setup(SETUP.to_vec()))?;
    for kind in 0..=5 {
        for length in 4..=4 + 4 * (Engine::INSTRUCTIONS + 1) {
            let record = zeros(kind, length);
            let (worker, lock) = (0, 0);
            let taken = pair.compare(&Call::Begin {
                worker,
                lock,
                record,
            })?;
            if taken {
                for size in [0, length - 1, length, length + 1, LONGEST_BYTES] {
                    pair.compare(&Call::Show { sheet: 0, size })?;
                }
                pair.compare(&Call::Drop(worker))?;
            }
        }
    }
    Ok(())
}
