//! The archive's book of standard jobs held against the second program's, at
//! the edges and on random books. Every field of a lookup's answer and of the
//! writer's is equal, and every byte of the lent buffer; what lies around it
//! is as it was.

use crate::told::{parts, wrote, AROUND};
use crate::PROGRESS;
use chantgarden::lent::{self, Found, Wrote};
use second::book::{self, NotFound};
use second::generate::books::{edges, given, Given};
use second::script::hex;

/// A lookup: line book, factory book and number.
pub type Find = dyn Fn(&[u8], &[u8], u32) -> Found;

/// A writer: book, number, job record and buffer.
pub type Add = dyn Fn(&[u8], u32, &[u8], &mut [u8]) -> Wrote;

/// The two calls on books, with their answers as the header has them.
#[derive(Clone, Copy)]
pub struct Books<'a> {
    pub find: &'a Find,
    pub add: &'a Add,
}

/// The archive's.
pub const ARCHIVE: Books = Books {
    find: &lent::book_find,
    add: &lent::book_add,
};

/// The second program's.
pub const SECOND: Books = Books {
    find: &|line, factory, number| found(book::find(line, factory, number)),
    add: &|book, number, record, buffer| wrote(book::add(book, number, record, buffer)),
};

/// What the second program's lookup told, in the header's terms.
fn found(result: Result<book::Found, NotFound>) -> Found {
    let book = match &result {
        Ok(job) => Some(job.book),
        Err(no) => no.book,
    };
    let (number, place, job) = parts(result.map_err(|no| no.refusal));
    Found {
        number,
        place,
        book: book.map_or(0, book::Book::number),
        offset: job.map_or(0, |job| job.offset as u32),
        length: job.map_or(0, |job| job.record.len() as u32),
    }
}

/// What is in a buffer before it is lent, and around it.
const UNTOUCHED: u8 = 0xA5;

/// Both answers, and the buffer with what lies around it.
#[derive(PartialEq, Eq, Debug)]
struct Told {
    found: Found,
    wrote: Wrote,
    buffer: Vec<u8>,
}

impl Told {
    /// Makes both calls; the new job is put into the line book.
    fn by(books: Books, given: &Given) -> Told {
        let found = (books.find)(&given.line, &given.factory, given.number);
        let mut buffer = vec![UNTOUCHED; AROUND + given.room + AROUND];
        let lent = &mut buffer[AROUND..AROUND + given.room];
        let wrote = (books.add)(&given.line, given.new, &given.record, lent);
        Told {
            found,
            wrote,
            buffer,
        }
    }
}

/// How many cases, all equal, came to what.
#[derive(Debug, Default)]
pub struct Cases {
    pub count: u64,
    /// Jobs found in each book; at 0 none.
    pub found: [u64; 3],
    /// Lookups refused 18 for each book; at 0 none.
    pub malformed: [u64; 3],
    /// Lookups refused 19.
    pub not_there: u64,
    /// Books refused to be written with each number; at 0 those written.
    pub wrote: [u64; 32],
}

impl Cases {
    /// One case of both programs.
    fn compare(&mut self, given: &Given, books: Books) -> Result<(), String> {
        let (ours, theirs) = (Told::by(SECOND, given), Told::by(books, given));
        if ours != theirs {
            return Err(difference(given, &ours, &theirs));
        }
        let Found { number, book, .. } = ours.found;
        let book = book as usize;
        self.count += 1;
        match number {
            0 => self.found[book] += 1,
            18 => self.malformed[book] += 1,
            _ => self.not_there += 1,
        }
        self.wrote[ours.wrote.number as usize] += 1;
        Ok(())
    }

    /// What they came to, in words.
    fn counts(&self) -> String {
        let ([_, line, factory], [_, bad_line, bad_factory]) = (self.found, self.malformed);
        let not_there = self.not_there;
        let written = self.wrote[0];
        let refused = [18, 19, 5, 6, 7, 20, 13].map(|number| {
            let times = self.wrote[number];
            format!("refused {number}: {times}")
        });
        let refused = refused.join(", ");
        format!("looked up: in the line book: {line}, in the factory book: {factory}, refused 18 of the line book: {bad_line}, of the factory book: {bad_factory}, refused 19: {not_there}; to be written: written: {written}, {refused}")
    }
}

/// The longest part of a book that is told.
const TOLD: usize = 600;

/// The first bytes of what was given, and how many there are.
fn first_bytes(bytes: &[u8]) -> String {
    let (length, first) = (bytes.len(), &bytes[..bytes.len().min(TOLD)]);
    format!("{} ({length} bytes)", hex(first))
}

/// What was given, of long books only the first part; what was told, and which
/// byte of the buffer is the first that differs, if one does.
fn difference(given: &Given, ours: &Told, theirs: &Told) -> String {
    let (line, factory) = (first_bytes(&given.line), first_bytes(&given.factory));
    let (number, new, room) = (given.number, given.new, given.room);
    let record = first_bytes(&given.record);
    let mut both = ours.buffer.iter().zip(&theirs.buffer);
    let byte = match both.position(|(ours, theirs)| ours != theirs) {
        None => String::new(),
        Some(at) => {
            let (ours, theirs) = (ours.buffer[at], theirs.buffer[at]);
            let place = at as i64 - AROUND as i64;
            format!("\nbyte {place} of the buffer: {ours}, archive: {theirs}")
        }
    };
    let told = |told: &Told| format!("{:?}, {:?}", told.found, told.wrote);
    let (ours, theirs) = (told(ours), told(theirs));
    format!("line book {line}\nfactory book {factory}\nlooked up: {number}; new: {new}, record {record}, buffer of {room} bytes\nsecond:  {ours}\narchive: {theirs}{byte}")
}

/// The cases at the edges, then as many random ones from this seed on; tells
/// what they came to.
pub fn compare(seed: u64, cases: u64, books: Books, told: impl Fn(u64)) -> Result<String, String> {
    let edges = at_the_edges(books)?.count;
    let random = at_random(seed, cases, books, told)?;
    let counts = random.counts();
    Ok(format!("{cases} random cases of books and {edges} at the edges, all equal; of the random ones {counts}"))
}

/// Random cases, number i of them the one of seed + i.
fn at_random(seed: u64, cases: u64, books: Books, told: impl Fn(u64)) -> Result<Cases, String> {
    let mut random = Cases::default();
    for case in 0..cases {
        let seed = seed.wrapping_add(case);
        let compared = random.compare(&given(seed), books);
        compared.map_err(|no| format!("case of seed {seed}: {no}"))?;
        if (case + 1).is_multiple_of(PROGRESS) {
            told(case + 1);
        }
    }
    Ok(random)
}

/// Cases that random ones don't come to, or not to all of them.
fn at_the_edges(books: Books) -> Result<Cases, String> {
    let mut cases = Cases::default();
    for given in edges() {
        cases.compare(&given, books)?;
    }
    Ok(cases)
}

#[cfg(test)]
mod tests {
    use super::*;
    use second::book::Wrong;

    /// Both kinds of cases are equal, and the random ones come to everything
    /// often enough.
    fn all_equal(books: Books) {
        let edges = at_the_edges(books).unwrap_or_else(|no| panic!("{no}"));
        assert!(edges.count >= 30_000);
        let cases = at_random(1, 20_000, books, |_| ()).unwrap_or_else(|no| panic!("{no}"));
        println!("{}", cases.counts());
        assert_eq!((cases.found[0], cases.malformed[0]), (0, 0));
        for times in [&cases.found[1..], &cases.malformed[1..], &[cases.not_there]].concat() {
            assert!(times >= 500, "{cases:?}");
        }
        let numbers = [0, 18, 19, 5, 6, 7, 20, 13].map(|number| cases.wrote[number]);
        assert!(numbers.iter().all(|&times| times >= 100), "{cases:?}");
        assert_eq!(numbers.iter().sum::<u64>(), cases.count);
    }

    #[test]
    fn equal_books() {
        all_equal(ARCHIVE);
    }

    /// The second program beside itself: nothing but its own answers is held
    /// against them.
    #[test]
    fn equal_to_itself() {
        all_equal(SECOND);
    }

    /// The comparison is not blind: random cases tell every wrong engine that
    /// stands in the archive's place.
    #[test]
    fn wrong_books() {
        for wrong in Wrong::ALL {
            let find =
                move |line: &[u8], factory: &[u8], number| found(wrong.find(line, factory, number));
            let add = move |book: &[u8], number, record: &[u8], buffer: &mut [u8]| {
                wrote(wrong.add(book, number, record, buffer))
            };
            let books = Books {
                find: &find,
                add: &add,
            };
            let told = at_random(1, 10_000, books, |_| ());
            assert!(told.is_err(), "{wrong:?} is not noticed");
        }
    }

    /// Makes a lookup's answer wrong.
    type Slip = fn(Found) -> Found;

    /// Answers with one field wrong.
    const WRONG: [(&str, Slip); 6] = [
        ("the entry's offset", |told| Found {
            offset: told.offset.max(6) - 6,
            ..told
        }),
        ("the entry's length", |told| Found {
            length: told.length + 6 * u32::from(told.number == 0),
            ..told
        }),
        ("the other book", |told| Found {
            book: [0, 2, 1][told.book as usize],
            ..told
        }),
        ("no book where a job is found", |told| Found {
            book: if told.number == 0 { 0 } else { told.book },
            ..told
        }),
        ("no place", |told| Found { place: 0, ..told }),
        ("a book under 19", |told| Found {
            book: if told.number == 19 { 2 } else { told.book },
            ..told
        }),
    ];

    #[test]
    fn wrong_fields() {
        for (name, wrong) in WRONG {
            let find = move |line: &[u8], factory: &[u8], number| {
                wrong((SECOND.find)(line, factory, number))
            };
            let books = Books {
                find: &find,
                ..SECOND
            };
            let told = at_random(1, 10_000, books, |_| ());
            assert!(told.is_err(), "{name} is not noticed");
        }
    }
}
