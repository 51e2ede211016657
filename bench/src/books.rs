//! Microseconds a lookup in a book of standard jobs, of the archive and of the
//! second program: of the last number of a line book, beside a factory book
//! without jobs. Both check the whole book first, and that is nearly all.

use crate::middle;
use chantgarden::lent;
use second::book;
use std::hint::black_box;
use std::time::Instant;

/// The length of the line book.
const BYTES: usize = 65_000;
/// Lookups of each side, one after the other in turn.
const ROUNDS: usize = 2_000;

/// A book of this job under the numbers from 0 on, and its last number.
fn book_of(job: &[u8], bytes: usize) -> (Vec<u8>, u32) {
    let length = book::HEAD + job.len();
    let mut entries = Vec::new();
    let jobs = (bytes / length) as u16;
    for number in 0..jobs {
        let head = [length as u16, book::KIND, number];
        entries.extend(head.map(u16::to_le_bytes).concat());
        entries.extend(job);
    }
    (entries, u32::from(jobs) - 1)
}

/// Microseconds of one lookup, which finds a job of this length.
fn timed(job: &[u8], look_up: impl FnOnce() -> usize) -> f64 {
    let started = Instant::now();
    let found = black_box(look_up());
    let time = started.elapsed().as_nanos() as f64 / 1_000.0;
    assert_eq!(found, job.len(), "it is there");
    time
}

fn times(job: &[u8], line: &[u8], last: u32) -> [f64; 2] {
    let mut all = [Vec::new(), Vec::new()];
    for _ in 0..ROUNDS {
        all[0].push(timed(job, || {
            lent::book_find(black_box(line), &[], black_box(last)).length as usize
        }));
        all[1].push(timed(job, || {
            let found = book::find(black_box(line), &[], black_box(last));
            found.map_or(0, |found| found.record.len())
        }));
    }
    all.map(middle)
}

/// One row.
pub fn table(job: &[u8]) {
    println!("\nMicroseconds a lookup of the last job of a line book, with no factory book:\n");
    println!("| line book | `chant_book_find` | second program | `chant_book_find` / second |");
    println!("|---|---|---|---|");
    let (line, last) = book_of(job, BYTES);
    let [lent, second] = times(job, &line, last);
    let (bytes, jobs, ratio) = (line.len(), last + 1, lent / second);
    println!("| {bytes} bytes, {jobs} jobs | {lent:.1} | {second:.1} | {ratio:.2} |");
}

#[cfg(test)]
mod tests {
    use super::*;

    /// The book that is timed has its length, and both find its last job.
    #[test]
    fn the_last_job_is_found() {
        let job = crate::Game::new(1, 2, 1).job;
        let (line, last) = book_of(&job, BYTES);
        assert_eq!(line.len(), BYTES);
        let told = lent::book_find(&line, &[], last);
        assert_eq!((told.number, told.offset as usize), (0, BYTES - job.len()));
        let found = book::find(&line, &[], last).expect("it is there");
        assert_eq!(found.offset, BYTES - job.len());
        assert_eq!(lent::book_find(&line, &[], last + 1).number, 19);
    }
}
