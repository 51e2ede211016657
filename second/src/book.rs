//! The book of standard jobs (request 08). An entry is a record of kind 5: a
//! two-byte job number, then one whole job record. A book is a slice of
//! entries end to end whose numbers strictly rise; no bytes at all is a book
//! without jobs. It is checked whole before anything is looked for in it, its
//! jobs by 5, 6 and 7: there is no lock to hold their words against.

mod wrong;

use crate::engine::{refused, refused_at, Refusal};
use crate::job;
use std::iter;
pub use wrong::Wrong;

/// The kind of an entry.
pub const KIND: u16 = 5;

/// The bytes of an entry before its job record: length, kind, job number.
pub const HEAD: usize = 6;

/// One of the two books that a unit lends.
#[derive(Clone, Copy, PartialEq, Eq, Debug)]
pub enum Book {
    Line,
    Factory,
}

impl Book {
    /// The number under which a lookup tells it.
    pub fn number(self) -> u32 {
        match self {
            Book::Line => 1,
            Book::Factory => 2,
        }
    }
}

/// A job that is there: the book that has it, and its record as it stands in
/// that book from this offset on.
#[derive(Clone, Copy, PartialEq, Eq, Debug)]
pub struct Found<'a> {
    pub book: Book,
    pub offset: usize,
    pub record: &'a [u8],
}

/// Why no job is handed back: 18, and which book is malformed, or 19.
#[derive(Clone, Copy, PartialEq, Eq, Debug)]
pub struct NotFound {
    pub refusal: Refusal,
    pub book: Option<Book>,
}

/// Checks a book whole; gives the offset of its first bad entry if there is
/// one.
pub fn check(book: &[u8]) -> Result<(), usize> {
    let (mut offset, mut before) = (0, None);
    while offset < book.len() {
        let entry = entry(book, offset).filter(|entry| good(entry, before));
        let entry = entry.ok_or(offset)?;
        before = Some(entry.number);
        offset = entry.end();
    }
    Ok(())
}

/// The job record of this number as it stands inside whichever book has it,
/// the line book first; an empty part where the lookup is refused.
pub fn look_up<'a>(line: &'a [u8], factory: &'a [u8], number: u32) -> &'a [u8] {
    find(line, factory, number).map_or(&[], |found| found.record)
}

/// The same lookup, with all that it has to tell: in which book and where, or
/// why not. A number is looked for only where both books are good.
pub fn find<'a>(line: &'a [u8], factory: &'a [u8], number: u32) -> Result<Found<'a>, NotFound> {
    let books = [(Book::Line, line), (Book::Factory, factory)];
    for (book, bytes) in books {
        check(bytes).map_err(|offset| malformed(book, offset))?;
    }
    first_of(books, number)
}

/// Writes a book with one new numbered job in its place into the first bytes
/// of a lent buffer, and tells how many. A refused call alters none of them.
pub fn add(book: &[u8], number: u32, record: &[u8], buffer: &mut [u8]) -> Result<usize, Refusal> {
    check(book).or_else(|offset| refused_at(18, offset))?;
    let number = job_number(number)?;
    check_job(record)?;
    let place = place_of(book, number)?;
    write(book, place, number, record, buffer)
}

/// An entry, cut as its length field says.
#[derive(Clone, Copy)]
struct Entry<'a> {
    /// That of its first byte in the book.
    offset: usize,
    kind: u16,
    number: u16,
    job: &'a [u8],
}

impl Entry<'_> {
    /// The offset after its last byte.
    fn end(&self) -> usize {
        self.offset + HEAD + self.job.len()
    }
}

/// The entry at an offset; none where it is cut short, or where its length
/// field leaves no room for its head.
fn entry(book: &[u8], offset: usize) -> Option<Entry<'_>> {
    let (head, rest) = book[offset..].split_first_chunk::<HEAD>()?;
    let field = |at: usize| u16::from_le_bytes([head[at], head[at + 1]]);
    let [length, kind, number] = [0, 2, 4].map(field);
    let job = rest.get(..usize::from(length).checked_sub(HEAD)?)?;
    Some(Entry {
        offset,
        kind,
        number,
        job,
    })
}

/// Whether an entry may stand in a book, straight after one of this number or
/// as the first. `None` is less than any number.
fn good(entry: &Entry, before: Option<u16>) -> bool {
    entry.kind == KIND && before < Some(entry.number) && check_job(entry.job).is_ok()
}

/// Checks a job record by 5, 6 and 7. It may name any word: no 8.
fn check_job(record: &[u8]) -> Result<(), Refusal> {
    job::taken(record, |_| true)?;
    Ok(())
}

/// The entries of a good book, in their order.
fn entries(book: &[u8]) -> impl Iterator<Item = Entry<'_>> {
    let first = entry(book, 0);
    iter::successors(first, |before| entry(book, before.end()))
}

fn malformed(book: Book, offset: usize) -> NotFound {
    let refusal = Refusal {
        number: 18,
        place: offset as u32,
    };
    let book = Some(book);
    NotFound { refusal, book }
}

/// The job of this number in the first of these good books that has it. No
/// entry has a number above 65,535.
fn first_of<'a>(books: [(Book, &'a [u8]); 2], number: u32) -> Result<Found<'a>, NotFound> {
    for (book, bytes) in books {
        let mut entries = entries(bytes);
        if let Some(entry) = entries.find(|entry| u32::from(entry.number) == number) {
            return Ok(found(book, &entry));
        }
    }
    Err(NotFound {
        refusal: Refusal {
            number: 19,
            place: 0,
        },
        book: None,
    })
}

fn found<'a>(book: Book, entry: &Entry<'a>) -> Found<'a> {
    Found {
        book,
        offset: entry.offset + HEAD,
        record: entry.job,
    }
}

/// The number as an entry has it; 19 where it is above 65,535.
fn job_number(number: u32) -> Result<u16, Refusal> {
    match u16::try_from(number) {
        Ok(number) => Ok(number),
        Err(_) => refused(19),
    }
}

/// Where an entry of this number belongs in a good book: before the first one
/// of a greater number, else at the end; 20 where the number is there.
fn place_of(book: &[u8], number: u16) -> Result<usize, Refusal> {
    match entries(book).find(|entry| entry.number >= number) {
        Some(entry) if entry.number == number => refused(20),
        Some(entry) => Ok(entry.offset),
        None => Ok(book.len()),
    }
}

/// Writes the book with a new entry at this place, where the buffer has room
/// for it.
fn write(
    book: &[u8],
    place: usize,
    number: u16,
    record: &[u8],
    buffer: &mut [u8],
) -> Result<usize, Refusal> {
    let length = HEAD + record.len();
    let whole = book.len() + length;
    let Some(mut left) = buffer.get_mut(..whole) else {
        return refused(13);
    };
    let head = [length as u16, KIND, number].map(u16::to_le_bytes);
    let (before, after) = book.split_at(place);
    for part in [before, head.as_flattened(), record, after] {
        let (first, others) = left.split_at_mut(part.len());
        first.copy_from_slice(part);
        left = others;
    }
    Ok(whole)
}
