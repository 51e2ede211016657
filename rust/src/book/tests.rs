//! Every sentence of request 08: where a job is found and which bytes are
//! handed back, when it is not there, what makes a book malformed and which
//! entry is told; what the writer writes, and its refusals in their order.

use super::*;
use crate::tests::{notated, Record};
use crate::{Answer, Engine};
use std::sync::LazyLock;

/// Job A adds 1 to word 0; job B: are words 0 and 1 equal?
static A: Record = LazyLock::new(|| {
    notated(
        "
        load r0 w0
        set r1 1
        add r0 r1
        store r0 w0
        halt yes",
    )
});
static B: Record = LazyLock::new(|| {
    notated(
        "
        load r0 w0
        load r1 w1
        skip 1 if r0 = r1
        halt no
        halt yes",
    )
});
/// Halts with yes, with no.
static YES: Record = LazyLock::new(|| notated("halt yes"));
static NO: Record = LazyLock::new(|| notated("halt no"));
/// The bytes of an entry before its job.
const HEAD: usize = 6;
/// What is in a buffer before it is lent.
const UNTOUCHED: u8 = 0xA5;

fn entry(number: u16, job: &[u8]) -> Vec<u8> {
    let length = (HEAD + job.len()) as u16;
    let head = [length, 5, number].map(u16::to_le_bytes).concat();
    [&head, job].concat()
}

fn book_of(jobs: &[(u16, &[u8])]) -> Vec<u8> {
    let entries = jobs.iter().map(|&(number, job)| entry(number, job));
    entries.collect::<Vec<_>>().concat()
}

/// A job record of so many halts.
fn halts(kind: u8, instructions: usize) -> Vec<u8> {
    let [low, high] = (4 + 4 * instructions as u16).to_le_bytes();
    let mut job = vec![low, high, kind, 0];
    job.resize(4 + 4 * instructions, 0);
    job
}

/// The jobs of one good book: the first and the last number, and two apart.
fn jobs() -> [(u16, &'static [u8]); 4] {
    [(0, &A), (7, &B), (300, &YES), (65_535, &NO)]
}

fn refusal(number: u32, place: u32) -> Refusal {
    Refusal { number, place }
}

fn malformed(book: Book, place: usize) -> NotFound {
    NotFound {
        refusal: refusal(18, place as u32),
        book: Some(book),
    }
}

const NOT_THERE: NotFound = NotFound {
    refusal: Refusal {
        number: 19,
        place: 0,
    },
    book: None,
};

/// A lookup is refused so, and hands back an empty part.
fn refuses(line: &[u8], factory: &[u8], number: u32, not_found: NotFound) {
    assert_eq!(find(line, factory, number), Err(not_found));
    assert!(look_up(line, factory, number).is_empty());
}

/// A lookup hands back the very bytes of a book from this offset on.
fn finds(books: [&[u8]; 2], number: u32, book: Book, offset: usize, job: &[u8]) {
    let [line, factory] = books;
    let found = find(line, factory, number).expect("it is there");
    assert_eq!((found.book, found.offset), (book, offset));
    assert_eq!(found.record, job);
    let part = &books[usize::from(book == Book::Factory)][offset..][..job.len()];
    for record in [found.record, look_up(line, factory, number)] {
        assert_eq!(record.as_ptr_range(), part.as_ptr_range());
    }
}

#[test]
fn jobs_as_they_stand_in_their_book() {
    let good = book_of(&jobs());
    let mut offset = 0;
    for (number, job) in jobs() {
        offset += HEAD;
        finds([&good, &[]], number.into(), Book::Line, offset, job);
        finds([&[], &good], number.into(), Book::Factory, offset, job);
        offset += job.len();
    }
}

#[test]
fn the_line_book_first() {
    let (line, factory) = (
        book_of(&[(7, &A)]),
        book_of(&[(3, &NO), (7, &B), (9, &YES)]),
    );
    finds([&line, &factory], 7, Book::Line, 6, &A);
    finds([&line, &factory], 3, Book::Factory, 6, &NO);
    finds([&line, &factory], 9, Book::Factory, 50, &YES);
    finds([&factory, &line], 7, Book::Line, 20, &B);
    // One book in both places is the line book.
    finds([&factory, &factory], 7, Book::Line, 20, &B);
}

#[test]
fn not_there_exactly_where_neither_has_it() {
    let (line, factory) = (book_of(&jobs()), book_of(&[(8, &NO)]));
    let there = [0, 7, 8, 300, 65_535];
    for number in 0..70_000 {
        let found = find(&line, &factory, number);
        assert_eq!(found.is_ok(), there.contains(&number), "{number}");
        assert!(found.is_ok() || found == Err(NOT_THERE), "{number}");
    }
    for number in [0, 7, 65_535, 65_536, 65_536 + 7, 1 << 31, u32::MAX] {
        refuses(&[], &[], number, NOT_THERE);
    }
    for number in [65_536, 65_536 + 7, u32::MAX] {
        refuses(&line, &factory, number, NOT_THERE);
    }
}

/// Entries that are bad straight after one of number 7.
fn bad_entries() -> Vec<Vec<u8>> {
    let good = entry(9, &A);
    let with = |at: usize, byte: u8| {
        let mut entry = good.clone();
        entry[at] = byte;
        entry
    };
    vec![
        // Its length: short of its head, of its job, and past the end.
        with(0, 0),
        with(0, 5),
        with(0, 29),
        with(0, 31),
        with(1, 1),
        // Its kind, and its number: the one before it, and one below that.
        with(2, 1),
        with(3, 1),
        with(4, 7),
        with(4, 6),
        // Its job, by 5, 6 and 7; it has no job; the job's length is short.
        entry(9, &halts(4, 32)),
        entry(9, &halts(1, 33)),
        entry(9, &halts(2, 1)),
        with(10, 8),
        with(26, 1),
        entry(9, &[]),
        entry(9, &A[..20]),
    ]
}

/// The first bad entry is told, in whichever book, wherever the number is.
#[test]
fn a_book_is_checked_whole() {
    let (before, good) = (book_of(&[(2, &YES), (7, &NO)]), book_of(&jobs()));
    for bad in bad_entries() {
        let bad = [&before[..], &bad].concat();
        let (line, factory) = [Book::Line, Book::Factory]
            .map(|book| malformed(book, before.len()))
            .into();
        for number in [2, 7, 300, 5, 65_536] {
            refuses(&bad, &good, number, line);
            refuses(&good, &bad, number, factory);
            refuses(&bad, &bad, number, line);
        }
        assert_eq!(check(&bad), Err(line.refusal));
    }
    assert_eq!([check(&[]), check(&before), check(&good)], [Ok(()); 3]);
}

/// The line book's first bad entry is told, also where the factory book's lies
/// before it; and of two bad entries the first one.
#[test]
fn the_first_bad_entry_of_the_line_book() {
    let line = [entry(2, &YES), entry(2, &YES), entry(1, &YES)].concat();
    let factory = [0; 6];
    refuses(&line, &factory, 2, malformed(Book::Line, 14));
    refuses(&factory, &line, 2, malformed(Book::Line, 0));
    refuses(&[], &line, 2, malformed(Book::Factory, 14));
}

/// A book that is cut is malformed at the entry that is cut, unless it is cut
/// between two.
#[test]
fn cut_books() {
    let good = book_of(&jobs());
    let ends = jobs().map(|(_, job)| HEAD + job.len());
    for cut in 0..good.len() {
        let (mut start, mut left) = (0, ends.iter());
        while let Some(length) = left.next().filter(|&length| start + length <= cut) {
            start += length;
        }
        let told = check(&good[..cut]);
        match start == cut {
            true => assert_eq!(told, Ok(())),
            false => assert_eq!(told, Err(refusal(18, start as u32)), "cut at {cut}"),
        }
    }
}

/// Numbers 0 and 65,535, jobs of all lengths of both kinds, and jobs that name
/// words of no lock: no 8.
#[test]
fn all_that_may_stand_in_a_book() {
    let (short, long) = ([1, 32].map(|n| halts(1, n)), [33, 64].map(|n| halts(4, n)));
    let far = [12, 0, 1, 0, 2, 0, 255, 0, 0, 1, 0, 0];
    let jobs = [&short[0][..], &short[1], &long[0], &long[1], &far];
    for job in jobs {
        let book = book_of(&[(0, job), (65_535, job)]);
        finds([&book, &[]], 0, Book::Line, 6, job);
        finds([&[], &book], 65_535, Book::Factory, 12 + job.len(), job);
        assert!(HEAD + job.len() <= ENTRY_BYTES);
    }
    assert_eq!(HEAD + long[1].len(), ENTRY_BYTES);
}

/// A worker begins a job straight from the book.
#[test]
fn a_job_from_the_book() {
    let setup = [15, 0, 2, 0, 1, 1, 0, 5, 0, 0, 0, 0, 0, 0, 0];
    let line = book_of(&[(7, &A)]);
    let mut engine = Engine::blank();
    assert_eq!(engine.setup(&setup), Ok(()));
    assert_eq!(engine.begin(0, 0, look_up(&line, &[], 7)), Ok(()));
    while engine.step(0).is_ok() {}
    let answer = engine.collect(0).map(|told| told.answer);
    assert_eq!(answer, Ok(Answer::RanYes));
    // The empty part of a refused lookup is no job.
    let none = engine.begin(0, 0, look_up(&line, &[], 8));
    assert_eq!(none, Err(refusal(5, 0)));
}

/// The writer is given this and writes this, and no byte more.
fn writes(book: &[u8], number: u32, job: &[u8], written: &[u8]) {
    let length = written.len();
    for more in [0, 1, 300] {
        let mut buffer = vec![UNTOUCHED; length + more];
        assert_eq!(add(book, number, job, &mut buffer), Ok(length));
        assert_eq!(&buffer[..length], written);
        assert!(buffer[length..].iter().all(|&byte| byte == UNTOUCHED));
    }
}

#[test]
fn a_new_job_in_its_place() {
    let jobs = jobs();
    for place in 0..jobs.len() {
        let mut others = jobs.to_vec();
        let (number, job) = others.remove(place);
        writes(&book_of(&others), number.into(), job, &book_of(&jobs));
    }
    for job in [halts(1, 1), halts(1, 32), halts(4, 33), halts(4, 64)] {
        writes(&[], 65_535, &job, &entry(65_535, &job));
        writes(&[], 0, &job, &entry(0, &job));
    }
}

/// The writer is refused so, and alters no byte of a buffer of this length.
fn writes_none(book: &[u8], number: u32, job: &[u8], room: usize, no: Refusal) {
    let mut buffer = vec![UNTOUCHED; room];
    assert_eq!(add(book, number, job, &mut buffer), Err(no));
    assert!(buffer.iter().all(|&byte| byte == UNTOUCHED));
}

/// Each refusal, where all that come after it would be told too.
#[test]
fn the_writers_refusals_in_their_order() {
    let good = book_of(&jobs());
    let mut bad_job = B.clone();
    bad_job[15] = 2;
    let mut bad_kind = bad_job.clone();
    bad_kind[2] = 2;
    for bad in bad_entries() {
        let book = [entry(7, &A), bad].concat();
        for room in [0, 1000] {
            writes_none(&book, 65_536, &[], room, refusal(18, 30));
        }
    }
    for room in [0, 1000] {
        for number in [65_536, 65_536 + 7, u32::MAX] {
            writes_none(&good, number, &bad_kind[..23], room, refusal(19, 0));
        }
        for job in [&[][..], &bad_kind[..23], &halts(1, 33), &halts(4, 32)] {
            writes_none(&good, 7, job, room, refusal(5, 0));
        }
        writes_none(&good, 7, &bad_kind, room, refusal(6, 0));
        writes_none(&good, 7, &bad_job, room, refusal(7, 2));
        for (number, _) in jobs() {
            writes_none(&good, number.into(), &A, room, refusal(20, 0));
        }
    }
    let whole = good.len() + HEAD + A.len();
    for room in [0, 6, good.len(), whole - 1] {
        writes_none(&good, 8, &A, room, refusal(13, 0));
    }
}

#[test]
fn refusals_in_words() {
    let words = [18, 19, 20].map(|number| refusal(number, 0).words());
    let said = [
        "book malformed",
        "number not there",
        "number present already",
    ];
    assert_eq!(words, said);
    let told = malformed(Book::Factory, 30).to_string();
    assert_eq!(
        told,
        "refused 18 at place 30: book malformed (the factory book)"
    );
    let told = NOT_THERE.to_string();
    assert_eq!(told, "refused 19 at place 0: number not there");
}
