//! Slips in the book of standard jobs. The tests make it wrong on purpose with
//! one of them, to see that it is told from the right one.

use super::*;

/// The slips: in checking a book or a job, in looking a number up, in writing.
#[derive(Clone, Copy, PartialEq, Eq, Debug)]
pub enum Wrong {
    /// A number may equal the one before it.
    EqualNumbers,
    /// A number may be any, whatever stands before it.
    FallingNumbers,
    /// The first number has to be above 0.
    NoNumberZero,
    /// An entry may have any kind.
    AnyKind,
    /// Of an entry's kind only the first byte counts.
    KindOfOneByte,
    /// An entry may be longer than its head and its job.
    LongerEntry,
    /// Where an entry ends is told by its job's length alone.
    JobLengthLeads,
    /// Only document 01's kind of job is taken.
    OldKindAlone,
    /// Either kind of job may have any count of instructions.
    AnyCount,
    /// A job's words are held against an empty table: 8.
    WordsHeld,
    /// Instructions are not checked.
    NoSeven,
    /// Too few bytes for a head, at the end of a book, are passed over.
    CutHeadPasses,
    /// A book without jobs is malformed.
    NoEmptyBook,
    /// The offset of the second bad entry is told.
    SecondBadEntry,
    /// An entry's index is told for its offset.
    IndexForOffset,
    /// The offset of a bad entry's job is told.
    OffsetOfJob,

    /// The factory book is looked in first.
    FactoryFirst,
    /// The factory book is checked first.
    FactoryCheckedFirst,
    /// The factory book is not checked where the line book has the number.
    LineAlone,
    /// Books are checked only as far as the number.
    UpToTheNumber,
    /// A number above 65,535 is cut to two bytes.
    NumberCut,
    /// A number's bytes are read the other way round.
    BytesSwapped,
    /// A number above 65,535 is refused before the books are looked at.
    NineteenFirst,
    /// The whole entry is handed back.
    WholeEntry,
    /// Which book is malformed is not told.
    BookUntold,

    /// The new job is put at the end.
    Appends,
    /// The number 65,535 is refused.
    NoLastNumber,
    /// The new job is looked at before the book.
    JobFirst,
    /// A number above 65,535 is refused after the new job.
    NineteenAfterJob,
    /// 20 is told before the new job is looked at.
    TwentyBeforeJob,
    /// The buffer's room is looked at before 20.
    RoomBeforeTwenty,
    /// A job that is there already makes room for the new one.
    Replaces,
    /// The place of 7 is not told.
    SevenWithoutPlace,
    /// The buffer has to have a byte more than it takes.
    OneByteMore,
    /// A refusal alters a byte of the buffer.
    RefusalAlters,
    /// As much of the book is written as fits.
    WritesWhatFits,
    /// The byte after the book is altered.
    LaterByte,
    /// The new entry's length is told for the book's.
    LengthOfEntry,
    /// Of the new entry's length only the first byte is written.
    LengthOfOneByte,
    /// Of the new entry's number only the first byte is written.
    NumberOfOneByte,
}

impl Wrong {
    /// All of them.
    pub const ALL: [Wrong; 40] = [
        Wrong::EqualNumbers,
        Wrong::FallingNumbers,
        Wrong::NoNumberZero,
        Wrong::AnyKind,
        Wrong::KindOfOneByte,
        Wrong::LongerEntry,
        Wrong::JobLengthLeads,
        Wrong::OldKindAlone,
        Wrong::AnyCount,
        Wrong::WordsHeld,
        Wrong::NoSeven,
        Wrong::CutHeadPasses,
        Wrong::NoEmptyBook,
        Wrong::SecondBadEntry,
        Wrong::IndexForOffset,
        Wrong::OffsetOfJob,
        Wrong::FactoryFirst,
        Wrong::FactoryCheckedFirst,
        Wrong::LineAlone,
        Wrong::UpToTheNumber,
        Wrong::NumberCut,
        Wrong::BytesSwapped,
        Wrong::NineteenFirst,
        Wrong::WholeEntry,
        Wrong::BookUntold,
        Wrong::Appends,
        Wrong::NoLastNumber,
        Wrong::JobFirst,
        Wrong::NineteenAfterJob,
        Wrong::TwentyBeforeJob,
        Wrong::RoomBeforeTwenty,
        Wrong::Replaces,
        Wrong::SevenWithoutPlace,
        Wrong::OneByteMore,
        Wrong::RefusalAlters,
        Wrong::WritesWhatFits,
        Wrong::LaterByte,
        Wrong::LengthOfEntry,
        Wrong::LengthOfOneByte,
        Wrong::NumberOfOneByte,
    ];
}

/// Checking.
impl Wrong {
    /// Checks a book as `check` does, but for the slip.
    pub fn check(self, book: &[u8]) -> Result<(), usize> {
        match (self, self.walk(book)) {
            (Wrong::JobLengthLeads, _) => check(&lengths_of_jobs(book)),
            (Wrong::NoEmptyBook, _) if book.is_empty() => Err(0),
            (Wrong::CutHeadPasses, Err(bad)) if book.len() - bad < HEAD => Ok(()),
            (Wrong::SecondBadEntry, Err(bad)) => Err(next_bad(book, bad)),
            (Wrong::IndexForOffset, Err(bad)) => Err(entries(&book[..bad]).count()),
            (Wrong::OffsetOfJob, Err(bad)) => Err(bad + HEAD),
            (_, walked) => walked,
        }
    }

    /// The walk of `check`.
    fn walk(self, book: &[u8]) -> Result<(), usize> {
        let mut offset = 0;
        let mut before = (self == Wrong::NoNumberZero).then_some(0);
        while offset < book.len() {
            let entry = entry(book, offset).filter(|entry| self.good(entry, before));
            let entry = entry.ok_or(offset)?;
            before = Some(entry.number);
            offset = entry.end();
        }
        Ok(())
    }

    fn good(self, entry: &Entry, before: Option<u16>) -> bool {
        let number = Some(entry.number);
        let kind = match self {
            Wrong::AnyKind => KIND,
            Wrong::KindOfOneByte => entry.kind % 256,
            _ => entry.kind,
        };
        let rises = match self {
            Wrong::FallingNumbers => true,
            Wrong::EqualNumbers => before <= number,
            _ => before < number,
        };
        let job = match self {
            Wrong::LongerEntry => as_long_as_it_says(entry.job),
            _ => entry.job,
        };
        kind == KIND && rises && self.check_job(job).is_ok()
    }

    fn check_job(self, record: &[u8]) -> Result<(), Refusal> {
        match self {
            Wrong::OldKindAlone => job::program(record, job::OLD).and(check_job(record)),
            Wrong::AnyCount => check_job(&of_the_right_kind(record)),
            Wrong::WordsHeld => job::taken(record, |_| false).map(|_| ()),
            Wrong::NoSeven => job::program(record, job::NOW).map(|_| ()),
            _ => check_job(record),
        }
    }
}

/// A job record of the kind that its count asks for.
fn of_the_right_kind(record: &[u8]) -> Vec<u8> {
    let mut record = record.to_vec();
    if let [_, _, kind @ (1 | 4), 0, ref program @ ..] = &mut record[..] {
        *kind = if program.len() / 4 <= 32 { 1 } else { 4 };
    }
    record
}

/// The first bytes that a record's length field counts, where there are more.
fn as_long_as_it_says(record: &[u8]) -> &[u8] {
    let length = record.first_chunk().map(|&field| u16::from_le_bytes(field));
    let counted = length.and_then(|length| record.get(..usize::from(length)));
    counted.unwrap_or(record)
}

/// The same book with each entry's length as its job's length has it.
fn lengths_of_jobs(book: &[u8]) -> Vec<u8> {
    let mut seen = book.to_vec();
    let mut offset = 0;
    while let Some(&[low, high]) = seen.get(offset + HEAD..offset + HEAD + 2) {
        let length = HEAD + usize::from(u16::from_le_bytes([low, high]));
        seen[offset..][..2].copy_from_slice(&(length as u16).to_le_bytes());
        offset += length;
    }
    seen
}

/// The offset of the first bad entry after a bad one, if there is one.
fn next_bad(book: &[u8], bad: usize) -> usize {
    let after = entry(book, bad).map_or(book.len(), |entry| entry.end());
    match check(&book[after..]) {
        Ok(()) => bad,
        Err(next) => after + next,
    }
}

/// Looking a number up.
impl Wrong {
    /// Finds a job as `find` does, but for the slip.
    pub fn find<'a>(
        self,
        line: &'a [u8],
        factory: &'a [u8],
        number: u32,
    ) -> Result<Found<'a>, NotFound> {
        let books = [(Book::Line, line), (Book::Factory, factory)];
        let [first, second] = books;
        match self {
            Wrong::FactoryFirst => {
                self.check_both(books)?;
                first_of([second, first], number)
            }
            Wrong::FactoryCheckedFirst => {
                self.check_both([second, first])?;
                first_of(books, number)
            }
            Wrong::LineAlone if find(line, &[], number).is_ok() => find(line, &[], number),
            Wrong::UpToTheNumber => up_to_the_number(books, number),
            Wrong::NumberCut => find(line, factory, number % 65_536),
            Wrong::BytesSwapped => find(line, factory, swapped(number)),
            Wrong::NineteenFirst if number > 65_535 => first_of(books, number),
            Wrong::WholeEntry => find(line, factory, number).map(|job| whole(books, job)),
            Wrong::BookUntold => {
                find(line, factory, number).map_err(|no| NotFound { book: None, ..no })
            }
            _ => {
                self.check_both(books)?;
                first_of(books, number)
            }
        }
    }

    fn check_both(self, books: [(Book, &[u8]); 2]) -> Result<(), NotFound> {
        for (book, bytes) in books {
            let checked = self.check(bytes);
            checked.map_err(|offset| malformed(book, offset))?;
        }
        Ok(())
    }
}

/// Goes through both books, and checks what it passes.
fn up_to_the_number<'a>(books: [(Book, &'a [u8]); 2], number: u32) -> Result<Found<'a>, NotFound> {
    for (book, bytes) in books {
        let bad = check(bytes).err();
        let passed = entries(&bytes[..bad.unwrap_or(bytes.len())]);
        let mut there = passed.filter(|entry| u32::from(entry.number) == number);
        match (there.next(), bad) {
            (Some(entry), _) => return Ok(found(book, &entry)),
            (None, Some(offset)) => return Err(malformed(book, offset)),
            (None, None) => {}
        }
    }
    first_of(books, number)
}

fn swapped(number: u32) -> u32 {
    match u16::try_from(number) {
        Ok(number) => u32::from(number.swap_bytes()),
        Err(_) => number,
    }
}

/// A job that was found, with its head.
fn whole<'a>(books: [(Book, &'a [u8]); 2], job: Found<'a>) -> Found<'a> {
    let [(_, line), (_, factory)] = books;
    let bytes = match job.book {
        Book::Line => line,
        Book::Factory => factory,
    };
    let offset = job.offset - HEAD;
    Found {
        offset,
        record: &bytes[offset..job.offset + job.record.len()],
        ..job
    }
}

/// Writing.
impl Wrong {
    /// Adds a job as `add` does, but for the slip.
    pub fn add(
        self,
        book: &[u8],
        number: u32,
        record: &[u8],
        buffer: &mut [u8],
    ) -> Result<usize, Refusal> {
        let less = buffer.len().saturating_sub(1);
        self.refused_early(book, number, record, buffer.len())?;
        let told = match self {
            Wrong::NumberCut => add(book, number % 65_536, record, buffer),
            Wrong::BytesSwapped => add(book, swapped(number), record, buffer),
            Wrong::OneByteMore => add(book, number, record, &mut buffer[..less]),
            _ => self.add_in_order(book, number, record, buffer),
        };
        match told {
            Ok(length) => Ok(self.written(book, number, record, buffer, length)),
            Err(no) => self.refused(no, book, number, record, buffer),
        }
    }

    /// What the slip refuses before its turn, or where nothing is wrong.
    fn refused_early(
        self,
        book: &[u8],
        number: u32,
        record: &[u8],
        room: usize,
    ) -> Result<(), Refusal> {
        let good = check(book).is_ok();
        let right = good && number <= 65_535;
        match self {
            Wrong::JobFirst => check_job(record),
            Wrong::NineteenFirst => job_number(number).map(|_| ()),
            Wrong::NineteenAfterJob if good => check_job(record),
            Wrong::NoLastNumber if good && number == 65_535 => refused(19),
            Wrong::TwentyBeforeJob if right => place_of(book, number as u16).map(|_| ()),
            Wrong::RoomBeforeTwenty if right => {
                check_job(record)?;
                match room < book.len() + HEAD + record.len() {
                    true => refused(13),
                    false => Ok(()),
                }
            }
            _ => Ok(()),
        }
    }

    /// The writer, with this slip's checks.
    fn add_in_order(
        self,
        book: &[u8],
        number: u32,
        record: &[u8],
        buffer: &mut [u8],
    ) -> Result<usize, Refusal> {
        self.check(book).or_else(|offset| refused_at(18, offset))?;
        let number = job_number(number)?;
        self.check_job(record)?;
        let place = place_of(book, number)?;
        let place = match self {
            Wrong::Appends => book.len(),
            _ => place,
        };
        write(book, place, number, record, buffer)
    }

    /// What the slip makes of a book that was written; the length that it
    /// tells.
    fn written(
        self,
        book: &[u8],
        number: u32,
        record: &[u8],
        buffer: &mut [u8],
        length: usize,
    ) -> usize {
        let place = place_of(book, number as u16).unwrap_or(0);
        match self {
            Wrong::LengthOfEntry => return HEAD + record.len(),
            Wrong::LengthOfOneByte => buffer[place + 1] = 0,
            Wrong::NumberOfOneByte => buffer[place + 5] = 0,
            Wrong::LaterByte => alter(buffer.get_mut(length)),
            _ => {}
        }
        length
    }

    /// What the slip makes of a refusal.
    fn refused(
        self,
        no: Refusal,
        book: &[u8],
        number: u32,
        record: &[u8],
        buffer: &mut [u8],
    ) -> Result<usize, Refusal> {
        match (self, no.number) {
            (Wrong::SevenWithoutPlace, 7) => return refused(7),
            (Wrong::RefusalAlters, _) => alter(buffer.last_mut()),
            (Wrong::Replaces, 20) => return add(&without(book, number), number, record, buffer),
            (Wrong::WritesWhatFits, 13) => {
                let mut whole = vec![0; book.len() + HEAD + record.len()];
                add(book, number, record, &mut whole)?;
                buffer.copy_from_slice(&whole[..buffer.len()]);
            }
            _ => {}
        }
        Err(no)
    }
}

/// Makes a byte, where there is one, another.
fn alter(byte: Option<&mut u8>) {
    if let Some(byte) = byte {
        *byte = !*byte;
    }
}

/// A good book without the job of this number.
fn without(book: &[u8], number: u32) -> Vec<u8> {
    let others = entries(book).filter(|entry| u32::from(entry.number) != number);
    let others = others.flat_map(|entry| &book[entry.offset..entry.end()]);
    others.copied().collect()
}
