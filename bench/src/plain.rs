//! The plain C engine, bench/plain.c: its calls are the archive's, on a state
//! of its own.

use chantgarden::lent::{Collected, Lock, Reply, Word, Wrote};
use compare::Calls;

/// What a worker is doing, as `plain_point` tells it: at one of the points of
/// a try that are below `IDLE`, in document 01's order, or none.
pub const IDLE: u32 = 9;
pub const FINISHED: u32 = 10;

#[rustfmt::skip]
extern "C" {
    fn plain_size() -> usize;
    fn plain_point(state: *const u64, worker: u32) -> u32;
    fn plain_setup(state: *mut u64, record: *const u8, length: usize) -> Reply;
    fn plain_begin(state: *mut u64, worker: u32, lock: u32, record: *const u8, length: usize) -> Reply;
    fn plain_step(state: *mut u64, worker: u32) -> Reply;
    fn plain_collect(state: *mut u64, worker: u32) -> Collected;
    fn plain_drop(state: *mut u64, worker: u32) -> Reply;
    fn plain_read_word(state: *const u64, word: u32) -> Word;
    fn plain_read_lock(state: *const u64, lock: u32) -> Lock;
    fn plain_show(state: *const u64, sheet: u32, buffer: *mut u8, length: usize) -> Wrote;
    fn plain_park(state: *const u64, buffer: *mut u8, length: usize) -> Wrote;
}

/// The room of the engine's struct, in which only its calls write. That is
/// what makes each of them safe: the room is as large as `plain_size` says,
/// a slice is a pointer and its length, and no call keeps a pointer.
pub struct Plain(Vec<u64>);

impl Plain {
    /// The blank state, which a refused setup gives.
    pub fn blank() -> Plain {
        // SAFETY: it only tells a number.
        let bytes = unsafe { plain_size() };
        let mut plain = Plain(vec![0; bytes.div_ceil(8)]);
        assert_eq!(plain.setup(&[]).number, 5);
        plain
    }

    /// What a worker (0 to 7) is doing.
    pub fn point(&self, worker: u32) -> u32 {
        assert!(worker < 8);
        // SAFETY: as at the struct, and there is such a worker.
        unsafe { plain_point(self.0.as_ptr(), worker) }
    }
}

/// Each is inlined, so that a caller's own call is the C function's.
/// SAFETY, for each: as at the struct.
impl Calls for Plain {
    #[inline]
    fn setup(&mut self, record: &[u8]) -> Reply {
        unsafe { plain_setup(self.0.as_mut_ptr(), record.as_ptr(), record.len()) }
    }

    #[inline]
    fn begin(&mut self, worker: u32, lock: u32, record: &[u8]) -> Reply {
        let (state, length) = (self.0.as_mut_ptr(), record.len());
        unsafe { plain_begin(state, worker, lock, record.as_ptr(), length) }
    }

    #[inline]
    fn step(&mut self, worker: u32) -> Reply {
        unsafe { plain_step(self.0.as_mut_ptr(), worker) }
    }

    #[inline]
    fn collect(&mut self, worker: u32) -> Collected {
        unsafe { plain_collect(self.0.as_mut_ptr(), worker) }
    }

    #[inline]
    fn drop_worker(&mut self, worker: u32) -> Reply {
        unsafe { plain_drop(self.0.as_mut_ptr(), worker) }
    }

    #[inline]
    fn read_word(&self, word: u32) -> Word {
        unsafe { plain_read_word(self.0.as_ptr(), word) }
    }

    #[inline]
    fn read_lock(&self, lock: u32) -> Lock {
        unsafe { plain_read_lock(self.0.as_ptr(), lock) }
    }

    #[inline]
    fn show(&self, sheet: u32, buffer: &mut [u8]) -> Wrote {
        let (state, length) = (self.0.as_ptr(), buffer.len());
        unsafe { plain_show(state, sheet, buffer.as_mut_ptr(), length) }
    }

    #[inline]
    fn park(&self, buffer: &mut [u8]) -> Wrote {
        unsafe { plain_park(self.0.as_ptr(), buffer.as_mut_ptr(), buffer.len()) }
    }
}
