//! Cases at the edges: every byte of a small book with every value, every cut
//! of one, entries and jobs of every kind and length, books about as long as a
//! length field can say, and books with all numbers that there are.

use super::{book, counts, entry, Given, Jobs, LAST};
use crate::book::HEAD;
use crate::engine::{header, Engine};
use crate::generate::SHORTEST_JOB;

/// All of them.
pub fn edges() -> Vec<Given> {
    let mut cases = every_byte();
    cases.extend(every_cut());
    cases.extend(every_job());
    cases.extend(every_entry());
    cases.extend(long_books());
    cases.extend(full_books());
    cases
}

/// Lends a book as the line book, to which a job is added, and as the factory
/// book.
fn either(bytes: &[u8], number: u32, new: u32) -> [Given; 2] {
    let as_line = with_room(Given {
        line: bytes.to_vec(),
        number,
        new,
        record: SHORTEST_JOB.to_vec(),
        ..Given::default()
    });
    let as_factory = with_room(Given {
        line: Vec::new(),
        factory: bytes.to_vec(),
        ..as_line.clone()
    });
    [as_line, as_factory]
}

/// With a buffer that is just long enough.
fn with_room(given: Given) -> Given {
    let room = given.line.len() + HEAD + given.record.len();
    Given { room, ..given }
}

/// Three jobs: 3, 5 and 260.
fn small() -> Jobs {
    let loads = [12, 0, 1, 0, 2, 0, 200, 0, 0, 0, 0, 0];
    let skips = [16, 0, 1, 0, 7, 0, 1, 1, 0, 1, 0, 0, 0, 0, 0, 0];
    Jobs::from([
        (3, SHORTEST_JOB.to_vec()),
        (5, loads.to_vec()),
        (260, skips.to_vec()),
    ])
}

fn every_byte() -> Vec<Given> {
    let mut bytes = book(&small());
    let mut cases = Vec::new();
    for place in 0..bytes.len() {
        let right = bytes[place];
        for value in 0..=255 {
            bytes[place] = value;
            cases.extend(either(&bytes, 5, 4));
        }
        bytes[place] = right;
    }
    cases
}

fn every_cut() -> Vec<Given> {
    let bytes = book(&small());
    let cuts = 0..=bytes.len();
    cuts.flat_map(|cut| either(&bytes[..cut], 3, 6)).collect()
}

/// A record of this kind and length, all zeros otherwise: each instruction
/// halts. It is cut off where it is shorter than its head.
fn zeros(kind: u16, length: usize) -> Vec<u8> {
    let mut record = header(length, kind);
    record.resize(length, 0);
    record
}

/// Lengths of jobs beyond what fits an entry, and beyond what a length field
/// can say.
const FAR: [usize; 7] = [65_528, 65_529, 65_530, 65_535, 65_536, 65_544, 65_796];

/// Jobs of all kinds about those that carry jobs, and of all lengths up to one
/// beyond the longest: inside a book, and to be added to one.
fn every_job() -> Vec<Given> {
    let longest = 4 + 4 * (Engine::INSTRUCTIONS + 1);
    let lengths = (0..=longest).chain(FAR);
    let shapes = lengths.flat_map(|length| (0..=5).map(move |kind| zeros(kind, length)));
    let cases = shapes.flat_map(|record| {
        let bytes = [entry(1, &SHORTEST_JOB), entry(2, &record)].concat();
        let mut cases = either(&bytes, 2, 4).to_vec();
        cases.push(with_room(Given {
            line: book(&small()),
            number: 2,
            new: 2,
            record,
            ..Given::default()
        }));
        cases
    });
    cases.collect()
}

/// Entries of all lengths about the right one, and of all kinds about theirs.
fn every_entry() -> Vec<Given> {
    let heads = (0..=40).map(|length| (length, 5));
    let kinds = [0, 1, 2, 3, 4, 5, 6, 255, 256, 261, 1_280, 65_535];
    let heads = heads.chain(kinds.map(|kind| (14, kind)));
    let cases = heads.flat_map(|(length, kind)| {
        let mut bytes = [entry(1, &SHORTEST_JOB), entry(2, &SHORTEST_JOB)].concat();
        bytes[14..18].copy_from_slice(&header(length, kind));
        bytes.extend(entry(3, &SHORTEST_JOB));
        either(&bytes, 2, 4)
    });
    cases.collect()
}

/// Books of just under 65,536 bytes and just over, and a byte less and more.
fn long_books() -> Vec<Given> {
    let mut cases = Vec::new();
    for length in [65_532, 65_534, 65_536, 65_538] {
        for jobs in [250, 1_000, 4_600] {
            let jobs = counts(length, jobs);
            let numbered = (7..).zip(jobs).map(|(number, count)| {
                let kind = if count <= 32 { 1 } else { 4 };
                (number, zeros(kind, 4 + 4 * count as usize))
            });
            let jobs: Jobs = numbered.collect();
            let last = jobs.keys().next_back().copied().map_or(0, u32::from);
            let mut bytes = book(&jobs);
            cases.extend(either(&bytes, last, 6));
            cases.extend(either(&bytes[1..], last, 6));
            cases.extend(either(&bytes[..bytes.len() - 1], last, last + 1));
            bytes.push(0);
            cases.extend(either(&bytes, 7, last + 1));
        }
    }
    cases
}

/// Books with all numbers that there are, or all but one; and such a book
/// with its last number twice.
fn full_books() -> Vec<Given> {
    let all = || (0..=u16::MAX).map(|number| (number, SHORTEST_JOB.to_vec()));
    let full = book(&all().collect());
    let mut cases = Vec::new();
    for number in [0, 255, 256, LAST, LAST + 1, u32::MAX] {
        cases.extend(either(&full, number, number));
    }
    for missing in [0, 1, 255, 256, 40_000, u16::MAX] {
        let others: Jobs = all().filter(|&(number, _)| number != missing).collect();
        let number = u32::from(missing);
        cases.extend(either(&book(&others), number, number));
    }
    let twice = [full, entry(u16::MAX, &SHORTEST_JOB)].concat();
    cases.extend(either(&twice, 0, LAST + 1));
    cases
}
