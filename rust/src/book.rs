//! Books of standard jobs (request 08): numbered job records end to end, as
//! include/chantgarden.h lays them out. A unit lends two, the factory's and
//! its line's; no bytes at all is a book without jobs. A book is checked whole
//! before anything is done with it. It has less than 4 GB: offsets are told in
//! 32 bits.
//!
//! ```
//! use chantgarden::{book, Refusal};
//!
//! // A job that answers yes; the book gets it as number 7.
//! let job = [8, 0, 1, 0, 0, 1, 0, 0];
//! let mut line = [0; book::ENTRY_BYTES];
//! let length = book::add(&[], 7, &job, &mut line)?;
//! assert_eq!(line[..length], [14, 0, 5, 0, 7, 0, 8, 0, 1, 0, 0, 1, 0, 0]);
//! assert_eq!(book::look_up(&line[..length], &[], 7), job);
//! # Ok::<(), Refusal>(())
//! ```

use crate::{lent, wrote, Refusal};
use std::error::Error;
use std::fmt;

/// The most bytes by which a new job makes a book longer.
pub const ENTRY_BYTES: usize = 266;

/// One of the two books that a unit lends.
#[derive(Clone, Copy, PartialEq, Eq, Hash, Debug)]
pub enum Book {
    /// The line's own, in which is looked first.
    Line,
    /// The factory's.
    Factory,
}

/// A job that is there.
#[must_use]
#[derive(Clone, Copy, PartialEq, Eq, Hash, Debug)]
pub struct Found<'a> {
    /// The book that has it.
    pub book: Book,
    /// Its record, the very bytes of that book.
    pub record: &'a [u8],
    /// Where the record begins in that book.
    pub offset: usize,
}

/// Why a lookup hands back no job: 18, a malformed book, or 19, neither book
/// has the number.
#[must_use]
#[derive(Clone, Copy, PartialEq, Eq, Hash, Debug)]
pub struct NotFound {
    /// The refusal. The place of 18 is the first byte of the first bad entry.
    pub refusal: Refusal,
    /// Which book is malformed: told of 18 alone.
    pub book: Option<Book>,
}

impl fmt::Display for NotFound {
    fn fmt(&self, out: &mut fmt::Formatter<'_>) -> fmt::Result {
        let of = match self.book {
            Some(Book::Line) => " (the line book)",
            Some(Book::Factory) => " (the factory book)",
            None => "",
        };
        write!(out, "{}{of}", self.refusal)
    }
}

impl Error for NotFound {}

/// Looks a number up in two books, the line book first, and tells which one
/// has it and where, or why not. A number is looked for only where both books
/// are good; none is above 65,535.
pub fn find<'a>(line: &'a [u8], factory: &'a [u8], number: u32) -> Result<Found<'a>, NotFound> {
    let told = lent::book_find(line, factory, number);
    let book = match told.book {
        1 => Some(Book::Line),
        2 => Some(Book::Factory),
        // The archive gives no number but 0 here.
        _ => None,
    };
    let (Some(in_book), 0) = (book, told.number) else {
        return Err(not_found(told, book));
    };
    let bytes = match in_book {
        Book::Line => line,
        Book::Factory => factory,
    };
    let (offset, length) = (told.offset as usize, told.length as usize);
    Ok(Found {
        book: in_book,
        record: &bytes[offset..offset + length],
        offset,
    })
}

/// The same lookup: only the job record as it stands in its book, and an empty
/// part where the lookup is refused. [`find`] on the same books tells why.
#[must_use]
pub fn look_up<'a>(line: &'a [u8], factory: &'a [u8], number: u32) -> &'a [u8] {
    find(line, factory, number).map_or(&[], |found| found.record)
}

/// Checks a book whole, which every other call does too; refused 18.
pub fn check(book: &[u8]) -> Result<(), Refusal> {
    // Whether the number is there doesn't matter.
    match find(book, &[], 0) {
        Err(not_found) if not_found.book.is_some() => Err(not_found.refusal),
        _ => Ok(()),
    }
}

/// Writes a book with one new numbered job in its place into the first bytes
/// of the buffer and tells how many; the bytes after them don't change. A
/// buffer of [`ENTRY_BYTES`] more than the book has is always long enough.
pub fn add(book: &[u8], number: u32, record: &[u8], buffer: &mut [u8]) -> Result<usize, Refusal> {
    wrote(lent::book_add(book, number, record, buffer))
}

fn not_found(told: lent::Found, book: Option<Book>) -> NotFound {
    let (number, place) = (told.number, told.place);
    let refusal = Refusal { number, place };
    NotFound { refusal, book }
}

#[cfg(test)]
mod tests;
