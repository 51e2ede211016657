//! The book of standard jobs (request 08): what a book is, what a lookup hands
//! back or why not, and what the writer writes, sentence by sentence; then the
//! same of random books, and that slips in it are told.

mod common;
use common::{bytes, job, job_of_kind, numbers, repeated, A, B, HALT};
use second::book::{self, Book, Found, NotFound, Wrong};
use second::engine::Refusal;
use second::generate::books::{self, edges, given, Given, Jobs};
use std::collections::BTreeMap;

const YES: [u8; 4] = [0, 1, 0, 0];
const BAD: [u8; 4] = [8, 0, 0, 0];

/// A job that halts with yes, and one that halts with no.
const JOB_YES: &str = "08 00 01 00 00 01 00 00";
const JOB_NO: &str = "08 00 01 00 00 00 00 00";

/// Entries of these jobs: numbers 3 and 7 answer yes, 5 answers no.
const THREE: &str = "0E 00 05 00 03 00 08 00 01 00 00 01 00 00";
const FIVE: &str = "0E 00 05 00 05 00 08 00 01 00 00 00 00 00";
const SEVEN: &str = "0E 00 05 00 07 00 08 00 01 00 00 01 00 00";

/// The bytes of parts that are written in hexadecimal, end to end.
fn hex(parts: &[&str]) -> Vec<u8> {
    match parts {
        [] => Vec::new(),
        _ => bytes(&parts.concat().replace(' ', "")),
    }
}

/// An entry, of whatever is in the job's place.
fn entry(number: u16, job: &[u8]) -> Vec<u8> {
    let length = 6 + job.len() as u16;
    let head = [length, 5, number].map(u16::to_le_bytes);
    [&head.concat(), job].concat()
}

/// What a lookup tells where a job is found: book, offset and length, and the
/// record is that part of that book, and what `look_up` hands back; else
/// number, place and book, and `look_up` hands back an empty part.
#[derive(PartialEq, Eq, Debug)]
enum Told {
    Found(u32, usize, usize),
    Refused(u32, u32, u32),
}

fn told(line: &[u8], factory: &[u8], number: u32) -> Told {
    let part = book::look_up(line, factory, number);
    match book::find(line, factory, number) {
        Ok(Found {
            book,
            offset,
            record,
        }) => {
            let lent = if book == Book::Line { line } else { factory };
            let same = [record, &lent[offset..][..record.len()]];
            assert!(same
                .iter()
                .all(|it| it.as_ptr_range() == part.as_ptr_range()));
            assert!(!part.is_empty());
            Told::Found(book.number(), offset, record.len())
        }
        Err(NotFound { refusal, book }) => {
            assert!(part.is_empty());
            let book = book.map_or(0, Book::number);
            Told::Refused(refusal.number, refusal.place, book)
        }
    }
}

/// 19, which has place 0 and names no book.
const NOT_THERE: Told = Told::Refused(19, 0, 0);

/// 18 of the line book, and of the factory book.
fn bad_line(offset: u32) -> Told {
    Told::Refused(18, offset, 1)
}

fn bad_factory(offset: u32) -> Told {
    Told::Refused(18, offset, 2)
}

/// Adds a job in a buffer of this size; gives what was told, and the bytes
/// written. Later bytes stay, and all of them where it is refused.
fn added(book: &[u8], number: u32, record: &[u8], room: usize) -> Result<Vec<u8>, (u32, u32)> {
    let before: Vec<u8> = (0..room).map(|place| 0xA5 ^ place as u8).collect();
    let mut buffer = before.clone();
    let told = book::add(book, number, record, &mut buffer);
    let length = told.unwrap_or(0);
    assert_eq!(buffer[length..], before[length..]);
    buffer.truncate(length);
    match told {
        Ok(_) => Ok(buffer),
        Err(no) => Err(numbers(Err::<(), Refusal>(no))),
    }
}

/// The same in a buffer that is long enough by far.
fn added_with_room(book: &[u8], number: u32, record: &[u8]) -> Result<Vec<u8>, (u32, u32)> {
    added(book, number, record, book.len() + record.len() + 100)
}

/// "A two-byte job number and then one whole job record": what is handed back
/// is the record as it stands there.
#[test]
fn an_entry() {
    let book = hex(&["0E 00 05 00 34 12 08 00 01 00 00 01 00 00"]);
    assert_eq!(told(&book, &[], 0x1234), Told::Found(1, 6, 8));
    assert_eq!(book::look_up(&book, &[], 0x1234), hex(&[JOB_YES]));
    assert_eq!(told(&book, &[], 0x3412), NOT_THERE);
    assert_eq!(told(&[], &book, 0x1234), Told::Found(2, 6, 8));
    // Jobs A and B of document 01's table, which name words.
    let book = hex(&["1E0005000100", A, "1E0005000200", B]);
    assert_eq!(told(&book, &[], 1), Told::Found(1, 6, 24));
    assert_eq!(told(&book, &[], 2), Told::Found(1, 36, 24));
    assert_eq!(book::look_up(&book, &[], 2), bytes(B));
}

/// "Whichever book has it, the line book first."
#[test]
fn the_line_book_first() {
    let line = hex(&[FIVE, SEVEN]);
    let factory = hex(&[THREE, FIVE]);
    assert_eq!(told(&line, &factory, 3), Told::Found(2, 6, 8));
    assert_eq!(told(&line, &factory, 5), Told::Found(1, 6, 8));
    assert_eq!(told(&line, &factory, 7), Told::Found(1, 20, 8));
    assert_eq!(told(&factory, &line, 5), Told::Found(1, 20, 8));
    // The same bytes lent twice.
    assert_eq!(told(&line, &line, 7), Told::Found(1, 20, 8));
}

/// No bytes at all is a book without jobs.
#[test]
fn books_without_jobs() {
    let book = hex(&[THREE]);
    assert_eq!(book::check(&[]), Ok(()));
    for number in [0, 3, 65_535, 65_536, u32::MAX] {
        assert_eq!(told(&[], &[], number), NOT_THERE);
    }
    assert_eq!(told(&book, &[], 3), Told::Found(1, 6, 8));
    assert_eq!(told(&[], &book, 3), Told::Found(2, 6, 8));
    assert_eq!(added_with_room(&[], 3, &hex(&[JOB_YES])), Ok(book));
}

/// "Not there" exactly where neither book holds the number.
#[test]
fn not_there() {
    let line = [entry(0, &job(&[YES])), entry(258, &job(&[YES, HALT]))].concat();
    let factory = [entry(258, &job(&[HALT])), entry(65_535, &job(&[YES]))].concat();
    for number in 0..3 * 65_536 {
        let right = match number {
            0 => Told::Found(1, 6, 8),
            258 => Told::Found(1, 20, 12),
            65_535 => Told::Found(2, 20, 8),
            _ => NOT_THERE,
        };
        assert_eq!(told(&line, &factory, number), right);
    }
    for high in [1 << 16, 1 << 24, 1 << 31, u32::MAX - 65_535] {
        for number in [0, 258, 65_535] {
            assert_eq!(told(&line, &factory, high + number), NOT_THERE);
        }
    }
}

/// "A book is checked whole before any lookup": also behind the number, and
/// the factory book where the line book has it. 18 comes before 19.
#[test]
fn checked_whole() {
    let good = hex(&[THREE, FIVE]);
    let bad = hex(&[THREE, FIVE, "0E 00 05 00 07 00 08 00 01 00 00 02 00 00"]);
    for number in [0, 3, 5, 7, 8, 65_536, u32::MAX] {
        assert_eq!(told(&bad, &good, number), bad_line(28));
        assert_eq!(told(&good, &bad, number), bad_factory(28));
        assert_eq!(told(&bad, &[], number), bad_line(28));
        assert_eq!(told(&[], &bad, number), bad_factory(28));
    }
}

/// "Line book before factory book", whose fault stands further to the front.
#[test]
fn both_malformed() {
    let late = hex(&[THREE, FIVE, "FF"]);
    let early = hex(&["FF", THREE]);
    assert_eq!(told(&late, &early, 3), bad_line(28));
    assert_eq!(told(&early, &late, 3), bad_line(0));
}

/// An entry that may stand between numbers 3 and 7, but for one fault.
const FAULTY: [&str; 26] = [
    // Its length: one less and one more, of its head alone, below that.
    "0D 00 05 00 05 00 08 00 01 00 00 01 00 00",
    "0F 00 05 00 05 00 08 00 01 00 00 01 00 00",
    "06 00 05 00 05 00 08 00 01 00 00 01 00 00",
    "05 00 05 00 05 00 08 00 01 00 00 01 00 00",
    "04 00 05 00 05 00 08 00 01 00 00 01 00 00",
    "00 00 05 00 05 00 08 00 01 00 00 01 00 00",
    "0E 01 05 00 05 00 08 00 01 00 00 01 00 00",
    "FF FF 05 00 05 00 08 00 01 00 00 01 00 00",
    // As long as the job and four bytes more; without a job.
    "12 00 05 00 05 00 08 00 01 00 00 01 00 00 00 00 00 00",
    "06 00 05 00 05 00",
    // Its kind.
    "0E 00 04 00 05 00 08 00 01 00 00 01 00 00",
    "0E 00 05 01 05 00 08 00 01 00 00 01 00 00",
    "0E 00 01 00 05 00 08 00 01 00 00 01 00 00",
    // Its number: that of the one before it, and below.
    "0E 00 05 00 03 00 08 00 01 00 00 01 00 00",
    "0E 00 05 00 02 00 08 00 01 00 00 01 00 00",
    "0E 00 05 00 00 00 08 00 01 00 00 01 00 00",
    // Its job's 5: its length, no instruction, one that is too few for kind 4.
    "0E 00 05 00 05 00 07 00 01 00 00 01 00 00",
    "0E 00 05 00 05 00 09 00 01 00 00 01 00 00",
    "0A 00 05 00 05 00 04 00 01 00",
    "09 00 05 00 05 00 03 00 01",
    "0E 00 05 00 05 00 08 00 04 00 00 01 00 00",
    // Its job's 6.
    "0E 00 05 00 05 00 08 00 05 00 00 01 00 00",
    "0E 00 05 00 05 00 08 00 01 01 00 01 00 00",
    // Its job's 7: a bad halt, a bad op, a last that is no halt.
    "0E 00 05 00 05 00 08 00 01 00 00 02 00 00",
    "12 00 05 00 05 00 0C 00 01 00 08 00 00 00 00 01 00 00",
    "0E 00 05 00 05 00 08 00 01 00 01 01 00 00",
];

/// "Any fault of an entry": 18 at the offset of its first byte, also where
/// another one follows. The writer says the same.
#[test]
fn malformed_entries() {
    let right = hex(&[THREE, FIVE, SEVEN]);
    assert_eq!(told(&right, &right, 7), Told::Found(1, 34, 8));
    for faulty in FAULTY {
        for bad in [
            hex(&[THREE, faulty]),
            hex(&[THREE, faulty, SEVEN]),
            hex(&[THREE, faulty, SEVEN, faulty]),
        ] {
            assert_eq!(told(&bad, &right, 3), bad_line(14), "{faulty}");
            assert_eq!(told(&right, &bad, 3), bad_factory(14), "{faulty}");
            assert_eq!(book::check(&bad), Err(14));
            assert_eq!(added_with_room(&bad, 9, &job(&[YES])), Err((18, 14)));
        }
    }
    // The first entry, and the third one.
    let first = hex(&[FAULTY[0], SEVEN]);
    assert_eq!(told(&first, &right, 7), bad_line(0));
    let third = hex(&[THREE, FIVE, SEVEN, SEVEN]);
    assert_eq!(told(&third, &right, 7), bad_line(42));
}

/// The number of the one that the fault is in, not of the one before it: here
/// 9 stands before 7, which is the bad one.
#[test]
fn falling_numbers() {
    let nine = entry(9, &job(&[YES]));
    let bad = [hex(&[THREE]), nine.clone(), hex(&[SEVEN, FIVE])].concat();
    assert_eq!(told(&[], &bad, 3), bad_factory(28));
    // Numbers are told by both bytes: 256 is above 255.
    let good = [entry(255, &job(&[YES])), entry(256, &job(&[YES]))];
    assert_eq!(book::check(&good.concat()), Ok(()));
    let [low, high] = good;
    assert_eq!(book::check(&[high, low].concat()), Err(14));
    assert_eq!(book::check(&[nine.clone(), nine].concat()), Err(14));
}

/// A book that is cut is good at an entry's edge alone.
#[test]
fn cut_books() {
    let parts = [
        hex(&[THREE]),
        entry(5, &job(&repeated([2, 0, 255, 0], 64))),
        hex(&[SEVEN]),
    ];
    let whole = parts.concat();
    for cut in 0..whole.len() {
        let right = match cut {
            0 | 14 | 280 => Ok(()),
            1..14 => Err(0),
            15..280 => Err(14),
            _ => Err(280),
        };
        assert_eq!(book::check(&whole[..cut]), right, "{cut}");
    }
    assert_eq!(whole.len(), 294);
    for more in 1..6 {
        let longer = [whole.clone(), vec![0; more]].concat();
        assert_eq!(book::check(&longer), Err(294));
    }
}

/// Every byte of a book with every value. A fault is told of the entry that
/// the byte is in; one of the order, of the first that is not above the one
/// before it.
#[test]
fn every_byte_in_turn() {
    let good = hex(&[THREE, FIVE, SEVEN]);
    let mut bad = good.clone();
    for place in 0..good.len() {
        let (entry, within) = (place / 14, place % 14);
        for value in 0..=255 {
            bad[place] = value;
            let numbers = [4, 18, 32].map(|at| u16::from_le_bytes([bad[at], bad[at + 1]]));
            let fallen = (1..3).find(|&at| numbers[at - 1] >= numbers[at]);
            let right = match within {
                4 | 5 => fallen.map_or(Ok(()), |entry| Err(14 * entry)),
                // The halt's answer.
                11 if value <= 1 => Ok(()),
                _ if value == good[place] => Ok(()),
                _ => Err(14 * entry),
            };
            assert_eq!(book::check(&bad), right, "{value} at {place}");
        }
        bad[place] = good[place];
    }
}

/// Both kinds of job record, each with its own counts.
#[test]
fn both_kinds_of_job() {
    for count in 0..=66 {
        for kind in [0, 1, 2, 3, 4, 5, 257, 260] {
            let record = job_of_kind(kind, &vec![YES; count]);
            let right = matches!((kind, count), (1, 1..=32) | (4, 33..=64));
            let book = entry(9, &record);
            let found = match right {
                true => Told::Found(1, 6, record.len()),
                false => bad_line(0),
            };
            assert_eq!(told(&book, &[], 9), found, "kind {kind}, {count}");
            let number = if kind == 1 || kind == 4 { 5 } else { 6 };
            let wrote = match right {
                true => Ok(book),
                false => Err((number, 0)),
            };
            assert_eq!(added_with_room(&[], 9, &record), wrote);
        }
    }
}

/// A job may name any word: there is no lock that it is held against, so no 8.
#[test]
fn any_word_may_be_named() {
    for word in 0..=255 {
        let naming = [[2, 0, word, 0], [3, 3, word, 0], [4, 1, 2, word], YES];
        let book = entry(9, &job(&naming));
        assert_eq!(told(&book, &[], 9), Told::Found(1, 6, 20));
        assert_eq!(added_with_room(&[], 9, &job(&naming)), Ok(book));
    }
}

/// "With one new numbered job in its place", written out.
#[test]
fn the_place_of_a_new_job() {
    let new = |number: u32, book: &[&str]| added_with_room(&hex(book), number, &hex(&[JOB_NO]));
    let four = "0E 00 05 00 04 00 08 00 01 00 00 00 00 00";
    let nought = "0E 00 05 00 00 00 08 00 01 00 00 00 00 00";
    let last = "0E 00 05 00 FF FF 08 00 01 00 00 00 00 00";
    let higher = "0E 00 05 00 03 01 08 00 01 00 00 00 00 00";
    assert_eq!(new(0, &[]), Ok(hex(&[nought])));
    assert_eq!(new(0, &[THREE]), Ok(hex(&[nought, THREE])));
    assert_eq!(new(4, &[THREE]), Ok(hex(&[THREE, four])));
    assert_eq!(new(4, &[SEVEN]), Ok(hex(&[four, SEVEN])));
    assert_eq!(new(5, &[THREE, SEVEN]), Ok(hex(&[THREE, FIVE, SEVEN])));
    assert_eq!(new(259, &[THREE, SEVEN]), Ok(hex(&[THREE, SEVEN, higher])));
    assert_eq!(new(65_535, &[THREE, FIVE]), Ok(hex(&[THREE, FIVE, last])));
    // Long jobs: an entry's length takes two bytes.
    let long = job(&repeated([5, 0, 1, 0], 64));
    let mut right = hex(&[THREE, "0A 01 05 00 05 00 04 01 04 00"]);
    right.extend(&long[4..]);
    right.extend(hex(&[SEVEN]));
    assert_eq!(added_with_room(&hex(&[THREE, SEVEN]), 5, &long), Ok(right));
}

/// A buffer of just the length is long enough, a byte less is 13; what is
/// longer keeps its later bytes (which `added` sees to).
#[test]
fn buffers() {
    let (book, record) = (hex(&[THREE, SEVEN]), hex(&[JOB_NO]));
    for room in 0..100 {
        let right = match room < 42 {
            true => Err((13, 0)),
            false => Ok(hex(&[THREE, FIVE, SEVEN])),
        };
        assert_eq!(added(&book, 5, &record, room), right, "{room}");
    }
}

/// The writer's refusals, each where no earlier one is given: 18, 19, then 5,
/// 6 and 7 of the new job, 20, 13.
#[test]
fn the_order_of_the_writer() {
    let good = hex(&[THREE, FIVE]);
    let malformed = hex(&[THREE, FIVE, FIVE]);
    let mut long = job(&[BAD]);
    long[0] += 4;
    let records = [
        (Vec::new(), Some((5, 0))),
        (hex(&["03 00 01"]), Some((5, 0))),
        (long, Some((5, 0))),
        (job_of_kind(3, &[BAD]), Some((6, 0))),
        (job_of_kind(5, &[]), Some((6, 0))),
        (job_of_kind(4, &[BAD]), Some((5, 0))),
        (job_of_kind(1, &[BAD; 33]), Some((5, 0))),
        (job(&[YES, [3, 0, 255, 0], BAD, BAD, HALT]), Some((7, 2))),
        (job(&repeated([4, 0, 4, 0], 64)), Some((7, 0))),
        (job(&[HALT, [1, 0, 0, 0]]), Some((7, 1))),
        (job(&[[2, 0, 255, 0], HALT]), None),
    ];
    for (record, of_job) in &records {
        for number in [4, 5, 65_536, 65_536 + 4, u32::MAX] {
            let needed = good.len() + 6 + record.len();
            for room in [0, needed - 1, needed] {
                let above = (number > 65_535).then_some((19, 0));
                let there = (number == 5).then_some((20, 0));
                let short = (room < needed).then_some((13, 0));
                let no = above.or(*of_job).or(there).or(short);
                let told = added(&good, number, record, room);
                assert_eq!(told.err(), no, "{number}, {room}, {record:?}");
                let told = added(&malformed, number, record, room);
                assert_eq!(told, Err((18, 28)));
            }
        }
    }
}

/// The lowest faulty instruction of the new job is told by its number.
#[test]
fn the_place_of_seven() {
    for place in 0..64 {
        let mut program = repeated([3, 0, 255, 0], 64);
        program[place] = BAD;
        program[63] = BAD;
        let told = added_with_room(&hex(&[THREE]), 3, &job(&program));
        assert_eq!(told, Err((7, place as u32)));
    }
}

/// All numbers in one book: there is no place for another job.
#[test]
fn a_full_book() {
    let one = hex(&[JOB_YES]);
    let all = (0..=65_535).map(|number| (number, one.clone()));
    let full: Jobs = all.collect();
    let bytes = books::book(&full);
    assert_eq!(bytes.len(), 917_504);
    assert_eq!(told(&bytes, &[], 65_535), Told::Found(1, 917_496, 8));
    assert_eq!(told(&bytes, &[], 65_536), NOT_THERE);
    for (number, no) in [(0, 20), (40_000, 20), (65_535, 20), (65_536, 19)] {
        assert_eq!(added_with_room(&bytes, number, &one), Err((no, 0)));
    }
    for missing in [0, 40_000, 65_535] {
        let mut others = full.clone();
        others.remove(&missing);
        let others = books::book(&others);
        assert_eq!(told(&[], &others, missing.into()), NOT_THERE);
        let wrote = added(&others, missing.into(), &one, bytes.len());
        assert!(wrote.is_ok_and(|wrote| wrote == bytes));
    }
    let more = [bytes, entry(65_535, &one)].concat();
    assert_eq!(told(&[], &more, 0), bad_factory(917_504));
}

/// Good random books: a lookup finds each job where it stands, and none under
/// the number after it; the writer writes the book of the old jobs and the new
/// one. Of long books not every job is looked up.
#[test]
fn random_good_books() {
    let mut sizes: BTreeMap<usize, u32> = BTreeMap::new();
    for seed in 0..3_000 {
        let jobs = books::jobs(seed);
        let bytes = books::book(&jobs);
        *sizes.entry(jobs.len()).or_default() += 1;
        let mut offset = 6;
        for (at, (&number, job)) in jobs.iter().enumerate() {
            let next = number.checked_add(1);
            let number = u32::from(number);
            if at % (1 + jobs.len() / 100) == 0 {
                let found = Told::Found(1, offset, job.len());
                assert_eq!(told(&bytes, &[], number), found);
                if next.is_none_or(|next| !jobs.contains_key(&next)) {
                    assert_eq!(told(&bytes, &[], number + 1), NOT_THERE);
                }
            }
            offset += 6 + job.len();
        }
        assert_eq!(offset, bytes.len() + 6);
        let Given { record, new, .. } = given(!seed);
        adds_one(&jobs, new, &record);
    }
    println!("{sizes:?}");
    assert!((0..=40).all(|jobs| sizes[&jobs] >= 5) && sizes.keys().any(|&jobs| jobs > 200));
}

/// What the writer makes of these jobs and a new one, if it takes it: a good
/// book in which the new job is found, and all old ones as they were.
fn adds_one(old: &Jobs, new: u32, record: &[u8]) {
    let bytes = books::book(old);
    let Ok(wrote) = added_with_room(&bytes, new, record) else {
        return;
    };
    let mut jobs = old.clone();
    assert_eq!(jobs.insert(new as u16, record.to_vec()), None);
    assert_eq!(wrote, books::book(&jobs));
    assert_eq!(book::check(&wrote), Ok(()));
    assert_eq!(book::look_up(&wrote, &[], new), record);
    assert!(book::look_up(&bytes, &[], new).is_empty());
    for (&number, job) in old.iter().step_by(1 + old.len() / 100) {
        let number = u32::from(number);
        assert_eq!(book::look_up(&bytes, &[], number), job);
        assert_eq!(book::look_up(&wrote, &[], number), job);
    }
}

/// Random cases, good and damaged: the writer and the lookup agree with each
/// other and with what is known of the parts.
#[test]
fn random_cases() {
    for seed in 0..CASES {
        let Given {
            line,
            factory,
            number,
            new,
            record,
            room,
        } = given(seed);
        let bad = [(1, &line), (2, &factory)].map(|(which, bytes)| {
            let bad = book::check(bytes).err();
            bad.map(|offset| Told::Refused(18, offset as u32, which))
        });
        let [of_line, of_factory] = bad;
        let bad = of_line.or(of_factory);
        let found = told(&line, &factory, number);
        match &found {
            Told::Refused(18, ..) => assert_eq!(bad, Some(found)),
            Told::Found(..) => assert!(bad.is_none() && number <= 65_535),
            _ => assert!(bad.is_none()),
        }
        first_bad_entry(&line);
        if let Ok(wrote) = added(&line, new, &record, room) {
            assert!(wrote.len() == line.len() + 6 + record.len() && wrote.len() <= room);
            assert_eq!(book::look_up(&wrote, &[], new), record);
            assert!(book::look_up(&line, &[], new).is_empty());
        }
    }
}

/// What stands before the first bad entry is a good book; with some bytes of
/// the bad one it is none.
fn first_bad_entry(bytes: &[u8]) {
    let Err(bad) = book::check(bytes) else {
        return;
    };
    assert!(bad < bytes.len());
    assert_eq!(book::check(&bytes[..bad]), Ok(()));
    for length in (bad + 1..=bytes.len()).take(20) {
        assert_eq!(book::check(&bytes[..length]), Err(bad));
    }
}

const CASES: u64 = 20_000;

/// What both calls tell of a case, and the whole buffer: by the right engine,
/// or by one with a slip.
fn outcome(given: &Given, wrong: Option<Wrong>) -> impl PartialEq + '_ {
    let Given {
        line,
        factory,
        number,
        new,
        record,
        room,
    } = given;
    let mut buffer = vec![0x5A; *room];
    let found = match wrong {
        None => book::find(line, factory, *number),
        Some(wrong) => wrong.find(line, factory, *number),
    };
    let wrote = match wrong {
        None => book::add(line, *new, record, &mut buffer),
        Some(wrong) => wrong.add(line, *new, record, &mut buffer),
    };
    (found, wrote, buffer)
}

/// Random cases tell every wrong engine.
#[test]
fn random_cases_tell_wrong_engines() {
    let mut apart = Wrong::ALL.map(|wrong| (wrong, 0));
    for seed in 0..CASES {
        let given = given(seed);
        let right = outcome(&given, None);
        for (wrong, told) in &mut apart {
            *told += u32::from(outcome(&given, Some(*wrong)) != right);
        }
    }
    println!("{apart:?}");
    for (wrong, told) in apart {
        assert!(told >= 20, "{wrong:?}: {told}");
    }
}

/// What a lookup and the writer tell of a case, by name.
fn names(given: &Given) -> Vec<String> {
    let found = match told(&given.line, &given.factory, given.number) {
        Told::Found(book, ..) => format!("found in {book}"),
        Told::Refused(no, _, book) => format!("refused {no} of {book}"),
    };
    let wrote = added(&given.line, given.new, &given.record, given.room);
    let number = wrote.as_ref().err().map_or(0, |no| no.0);
    let mut names = vec![found, format!("wrote {number}")];
    let others = of_books(given).into_iter().chain(of_writing(given, wrote));
    let there = others.filter(|&(_, there)| there);
    names.extend(there.map(|(name, _)| name.to_string()));
    names
}

/// What stands out in the books and in the number that is looked up.
fn of_books(given: &Given) -> [(&'static str, bool); 12] {
    let (line, factory, number) = (&given.line, &given.factory, given.number);
    let has = |book: &[u8]| !book::look_up(book, &[], number).is_empty();
    let both = has(line) && has(factory);
    let bad = [line, factory].map(|book| book::check(book).is_err());
    let kind = |kind: u8| line.get(8) == Some(&kind) && !bad[0];
    let long = line.len() >= 65_535;
    [
        ("in both", both),
        ("both malformed", bad == [true, true]),
        ("above", number > 65_535 && bad == [false, false]),
        ("empty line", line.is_empty()),
        ("empty factory", factory.is_empty()),
        ("both empty", line.is_empty() && factory.is_empty()),
        ("kind 1", kind(1)),
        ("kind 4", kind(4)),
        ("long, good", long && !bad[0]),
        ("long, malformed", long && bad[0]),
        ("number 0", number == 0 && both),
        ("the last number", number == 65_535 && both),
    ]
}

/// What stands out in what was written, and in the buffer for it.
fn of_writing(given: &Given, told: Result<Vec<u8>, (u32, u32)>) -> [(&'static str, bool); 6] {
    let (line, room) = (&given.line, given.room);
    let needed = line.len() + 6 + given.record.len();
    let short = told == Err((13, 0));
    let wrote = told.unwrap_or_default();
    let written = !wrote.is_empty();
    [
        ("just enough", room == needed && written),
        ("a byte less", room + 1 == needed && short),
        ("later bytes", room > needed && written),
        ("no buffer", room == 0 && short),
        ("added first", written && wrote.ends_with(line)),
        ("added last", written && wrote.starts_with(line)),
    ]
}

/// Random cases come to everything that there is to tell.
#[test]
fn random_cases_reach_everything() {
    let mut found: BTreeMap<String, u32> = BTreeMap::new();
    for seed in 0..CASES {
        for name in names(&given(seed)) {
            *found.entry(name).or_default() += 1;
        }
    }
    println!("{found:?}");
    let told = [
        "found in 1",
        "found in 2",
        "refused 18 of 1",
        "refused 18 of 2",
        "refused 19 of 0",
    ];
    for name in told {
        assert!(found[name] >= 1_000, "{name}");
    }
    for number in [0, 5, 6, 7, 13, 18, 19, 20] {
        assert!(found[&format!("wrote {number}")] >= 200, "{number}");
    }
    assert!(found.len() == 5 + 8 + 18, "{found:?}");
    assert!(found.values().all(|&times| times >= 10));
    assert_eq!(given(7), given(7));
}

/// The cases at the edges come to what random ones hardly do.
#[test]
fn cases_at_the_edges() {
    let cases = edges();
    let mut found: BTreeMap<String, u32> = BTreeMap::new();
    for name in cases.iter().flat_map(names) {
        *found.entry(name).or_default() += 1;
    }
    println!("{} cases, {found:?}", cases.len());
    assert!(found["long, good"] >= 10 && found["long, malformed"] >= 10);
    for number in [0, 5, 6, 18, 19, 20] {
        assert!(found.contains_key(&format!("wrote {number}")), "{number}");
    }
}
