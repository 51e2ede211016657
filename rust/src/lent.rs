//! The archive's nine calls on numbers that the caller lends, its writer of a
//! call's record, its plain engine and its two calls on books, one function
//! each, with the answers as include/chantgarden.h has them: number 0 says
//! accepted, and a field that has nothing to tell is 0. [`Engine`],
//! [`Recorder`] and [`book`] are built on these. They are all safe, for any
//! slices and numbers at all.
//!
//! All that is unsafe in this package stands here: thirteen calls of functions
//! that are declared by hand. That is sound, because
//!
//! - the declarations are the header's, name by name: a slice is a pointer
//!   and then its length, and an answer is a struct of `u32` numbers, for
//!   which all bits are valid;
//! - a function of the archive reads and writes only what it is lent, keeps
//!   no pointer and returns, whatever the numbers, the bytes and the lengths
//!   are. That is proved of its code. Too few numbers are refused with 22;
//! - a slice lent as `&mut` overlaps no other, by Rust's own rules, and one
//!   lent as `&` is only read.
//!
//! [`book`]: crate::book
//! [`Engine`]: crate::Engine
//! [`Recorder`]: crate::Recorder

/// How many numbers a state has: the header's `CHANT_STATE_NUMBERS`. All 0
/// is the blank state.
pub const NUMBERS: usize = include!(concat!(env!("OUT_DIR"), "/numbers"));

/// The header's `CHANT_BEGIN` and the other calls that have a record.
pub const BEGIN: u32 = 0;
pub const STEP: u32 = 1;
pub const COLLECT: u32 = 2;
pub const DROP: u32 = 3;

/// The header's `chant_reply`.
#[must_use]
#[repr(C)]
#[derive(Clone, Copy, PartialEq, Eq, Debug, Default)]
pub struct Reply {
    pub number: u32,
    pub place: u32,
}

/// The header's `chant_collected`.
#[must_use]
#[repr(C)]
#[derive(Clone, Copy, PartialEq, Eq, Debug, Default)]
pub struct Collected {
    pub number: u32,
    pub place: u32,
    pub answer: u32,
    pub steps: u32,
    pub filled: u32,
}

/// The header's `chant_word`.
#[must_use]
#[repr(C)]
#[derive(Clone, Copy, PartialEq, Eq, Debug, Default)]
pub struct Word {
    pub number: u32,
    pub place: u32,
    pub value: u32,
    pub count: u32,
    pub guard: u32,
}

/// The header's `chant_lock`.
#[must_use]
#[repr(C)]
#[derive(Clone, Copy, PartialEq, Eq, Debug, Default)]
pub struct Lock {
    pub number: u32,
    pub place: u32,
    pub turn: u32,
    pub held: u32,
    pub sheet: u32,
}

/// The header's `chant_wrote`.
#[must_use]
#[repr(C)]
#[derive(Clone, Copy, PartialEq, Eq, Debug, Default)]
pub struct Wrote {
    pub number: u32,
    pub place: u32,
    pub length: u32,
}

/// The header's `chant_ran`.
#[must_use]
#[repr(C)]
#[derive(Clone, Copy, PartialEq, Eq, Debug, Default)]
pub struct Plain {
    pub number: u32,
    pub place: u32,
    pub answer: u32,
    pub executed: u32,
}

/// The header's `chant_found`.
#[must_use]
#[repr(C)]
#[derive(Clone, Copy, PartialEq, Eq, Debug, Default)]
pub struct Found {
    pub number: u32,
    pub place: u32,
    pub book: u32,
    pub offset: u32,
    pub length: u32,
}

#[rustfmt::skip]
extern "C" {
    fn chant_setup(state: *mut u32, numbers: usize, record: *const u8, length: usize) -> Reply;
    fn chant_begin(state: *mut u32, numbers: usize, worker: u32, lock: u32, record: *const u8, length: usize) -> Reply;
    fn chant_step(state: *mut u32, numbers: usize, worker: u32) -> Reply;
    fn chant_collect(state: *mut u32, numbers: usize, worker: u32) -> Collected;
    fn chant_drop(state: *mut u32, numbers: usize, worker: u32) -> Reply;
    fn chant_read_word(state: *const u32, numbers: usize, word: u32) -> Word;
    fn chant_read_lock(state: *const u32, numbers: usize, lock: u32) -> Lock;
    fn chant_show(state: *const u32, numbers: usize, sheet: u32, buffer: *mut u8, length: usize) -> Wrote;
    fn chant_park(state: *const u32, numbers: usize, buffer: *mut u8, length: usize) -> Wrote;
    fn chant_record(call: u32, worker: u32, lock: u32, record: *const u8, length: usize, buffer: *mut u8, room: usize) -> Wrote;
    fn chant_plain(values: *mut u32, values_length: usize, guards: *const u8, guards_length: usize, lock: u32, record: *const u8, length: usize) -> Plain;
    fn chant_book_find(line: *const u8, line_length: usize, factory: *const u8, factory_length: usize, number: u32) -> Found;
    fn chant_book_add(book: *const u8, book_length: usize, number: u32, record: *const u8, record_length: usize, buffer: *mut u8, length: usize) -> Wrote;
}

/// A fresh state from a setup record; a refused one gives the blank state.
#[inline]
pub fn setup(state: &mut [u32], record: &[u8]) -> Reply {
    let (numbers, length) = (state.len(), record.len());
    // SAFETY: two slices that don't overlap, as the module's text says.
    unsafe { chant_setup(state.as_mut_ptr(), numbers, record.as_ptr(), length) }
}

/// Gives an idle worker a job record to try under a lock.
#[inline]
pub fn begin(state: &mut [u32], worker: u32, lock: u32, record: &[u8]) -> Reply {
    let (numbers, length) = (state.len(), record.len());
    let (state, record) = (state.as_mut_ptr(), record.as_ptr());
    // SAFETY: two slices that don't overlap, as the module's text says.
    unsafe { chant_begin(state, numbers, worker, lock, record, length) }
}

/// One step of a worker's try.
#[inline]
pub fn step(state: &mut [u32], worker: u32) -> Reply {
    // SAFETY: one slice, as the module's text says.
    unsafe { chant_step(state.as_mut_ptr(), state.len(), worker) }
}

/// Hands out a finished worker's answer, and how many steps it made and how
/// many log entries it filled.
#[inline]
pub fn collect(state: &mut [u32], worker: u32) -> Collected {
    // SAFETY: one slice, as the module's text says.
    unsafe { chant_collect(state.as_mut_ptr(), state.len(), worker) }
}

/// Makes a worker that isn't idle idle.
#[inline]
pub fn drop(state: &mut [u32], worker: u32) -> Reply {
    // SAFETY: one slice, as the module's text says.
    unsafe { chant_drop(state.as_mut_ptr(), state.len(), worker) }
}

/// A word's value, its count of changes and its guard.
#[inline]
pub fn read_word(state: &[u32], word: u32) -> Word {
    // SAFETY: one slice, as the module's text says.
    unsafe { chant_read_word(state.as_ptr(), state.len(), word) }
}

/// A lock's turn, and the sheet that holds it where one does.
#[inline]
pub fn read_lock(state: &[u32], lock: u32) -> Lock {
    // SAFETY: one slice, as the module's text says.
    unsafe { chant_read_lock(state.as_ptr(), state.len(), lock) }
}

/// Writes the job record of a sheet in use into the first bytes.
#[inline]
pub fn show(state: &[u32], sheet: u32, buffer: &mut [u8]) -> Wrote {
    let (numbers, length) = (state.len(), buffer.len());
    let (state, buffer) = (state.as_ptr(), buffer.as_mut_ptr());
    // SAFETY: two slices that don't overlap, as the module's text says.
    unsafe { chant_show(state, numbers, sheet, buffer, length) }
}

/// Writes the setup record of the present values and turns.
#[inline]
pub fn park(state: &[u32], buffer: &mut [u8]) -> Wrote {
    let (numbers, length) = (state.len(), buffer.len());
    // SAFETY: two slices that don't overlap, as the module's text says.
    unsafe { chant_park(state.as_ptr(), numbers, buffer.as_mut_ptr(), length) }
}

/// Writes the record of a call of this number: [`BEGIN`], with its lock and
/// its job record, or [`STEP`], [`COLLECT`], [`DROP`].
#[inline]
pub fn record(call: u32, worker: u32, lock: u32, record: &[u8], buffer: &mut [u8]) -> Wrote {
    let (length, room) = (record.len(), buffer.len());
    let (record, buffer) = (record.as_ptr(), buffer.as_mut_ptr());
    // SAFETY: two slices that don't overlap, as the module's text says.
    unsafe { chant_record(call, worker, lock, record, length, buffer, room) }
}

/// Runs a job record at once on the words' values, with their guards.
#[inline]
pub fn plain(values: &mut [u32], guards: &[u8], lock: u32, record: &[u8]) -> Plain {
    let lengths = [values.len(), guards.len(), record.len()];
    let (values, guards, record) = (values.as_mut_ptr(), guards.as_ptr(), record.as_ptr());
    // SAFETY: three slices, of which the one that is written overlaps no
    // other, as the module's text says.
    unsafe {
        chant_plain(
            values, lengths[0], guards, lengths[1], lock, record, lengths[2],
        )
    }
}

/// Looks a number up in a line book and a factory book.
#[inline]
pub fn book_find(line: &[u8], factory: &[u8], number: u32) -> Found {
    let lengths = [line.len(), factory.len()];
    let (line, factory) = (line.as_ptr(), factory.as_ptr());
    // SAFETY: two slices that are only read, as the module's text says.
    unsafe { chant_book_find(line, lengths[0], factory, lengths[1], number) }
}

/// Writes a book with one new numbered job into the first bytes.
#[inline]
pub fn book_add(book: &[u8], number: u32, record: &[u8], buffer: &mut [u8]) -> Wrote {
    let lengths = [book.len(), record.len(), buffer.len()];
    let (book, record, buffer) = (book.as_ptr(), record.as_ptr(), buffer.as_mut_ptr());
    // SAFETY: three slices, of which the one that is written overlaps no
    // other, as the module's text says.
    unsafe {
        chant_book_add(
            book, lengths[0], number, record, lengths[1], buffer, lengths[2],
        )
    }
}
