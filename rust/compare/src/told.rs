//! The nine calls in the header's terms, on whichever engine answers them,
//! and what one call told.

use chantgarden::lent::{self, Collected, Lock, Reply, Word, Wrote};
use second::engine::{Engine, Refusal};
use second::script::Call;

/// Bytes before and after a lent buffer, and values before and after a lent
/// table; no call touches them.
pub const AROUND: usize = 16;

/// An engine by its nine calls, with the answers as the header has them.
pub trait Calls {
    fn setup(&mut self, record: &[u8]) -> Reply;
    fn begin(&mut self, worker: u32, lock: u32, record: &[u8]) -> Reply;
    fn step(&mut self, worker: u32) -> Reply;
    fn collect(&mut self, worker: u32) -> Collected;
    fn drop_worker(&mut self, worker: u32) -> Reply;
    fn read_word(&self, word: u32) -> Word;
    fn read_lock(&self, lock: u32) -> Lock;
    fn show(&self, sheet: u32, buffer: &mut [u8]) -> Wrote;
    fn park(&self, buffer: &mut [u8]) -> Wrote;
}

/// The archive's engine: the numbers that it is lent.
pub struct Archive(pub Vec<u32>);

/// Each is inlined, so that a caller's own call is the archive's.
impl Calls for Archive {
    #[inline]
    fn setup(&mut self, record: &[u8]) -> Reply {
        lent::setup(&mut self.0, record)
    }

    #[inline]
    fn begin(&mut self, worker: u32, lock: u32, record: &[u8]) -> Reply {
        lent::begin(&mut self.0, worker, lock, record)
    }

    #[inline]
    fn step(&mut self, worker: u32) -> Reply {
        lent::step(&mut self.0, worker)
    }

    #[inline]
    fn collect(&mut self, worker: u32) -> Collected {
        lent::collect(&mut self.0, worker)
    }

    #[inline]
    fn drop_worker(&mut self, worker: u32) -> Reply {
        lent::drop(&mut self.0, worker)
    }

    #[inline]
    fn read_word(&self, word: u32) -> Word {
        lent::read_word(&self.0, word)
    }

    #[inline]
    fn read_lock(&self, lock: u32) -> Lock {
        lent::read_lock(&self.0, lock)
    }

    #[inline]
    fn show(&self, sheet: u32, buffer: &mut [u8]) -> Wrote {
        lent::show(&self.0, sheet, buffer)
    }

    #[inline]
    fn park(&self, buffer: &mut [u8]) -> Wrote {
        lent::park(&self.0, buffer)
    }
}

/// The second program's engine.
pub struct Second(pub Engine);

impl Calls for Second {
    fn setup(&mut self, record: &[u8]) -> Reply {
        replied(self.0.setup(record))
    }

    fn begin(&mut self, worker: u32, lock: u32, record: &[u8]) -> Reply {
        replied(self.0.begin(worker, lock, record))
    }

    fn step(&mut self, worker: u32) -> Reply {
        replied(self.0.step(worker))
    }

    fn collect(&mut self, worker: u32) -> Collected {
        let (number, place, given) = parts(self.0.collect(worker));
        Collected {
            number,
            place,
            answer: given.map_or(0, |given| given.answer.number()),
            steps: given.map_or(0, |given| given.steps),
            filled: given.map_or(0, |given| given.filled),
        }
    }

    fn drop_worker(&mut self, worker: u32) -> Reply {
        replied(self.0.drop_worker(worker))
    }

    fn read_word(&self, word: u32) -> Word {
        let (number, place, given) = parts(self.0.read_word(word));
        Word {
            number,
            place,
            value: given.map_or(0, |word| word.value),
            count: given.map_or(0, |word| word.count),
            guard: given.map_or(0, |word| word.guard as u32),
        }
    }

    fn read_lock(&self, lock: u32) -> Lock {
        let (number, place, given) = parts(self.0.read_lock(lock));
        let sheet = given.and_then(|lock| lock.sheet);
        Lock {
            number,
            place,
            turn: given.map_or(0, |lock| lock.turn),
            held: u32::from(sheet.is_some()),
            sheet: sheet.map_or(0, |sheet| sheet as u32),
        }
    }

    fn show(&self, sheet: u32, buffer: &mut [u8]) -> Wrote {
        wrote(self.0.show(sheet, buffer))
    }

    fn park(&self, buffer: &mut [u8]) -> Wrote {
        wrote(self.0.park(buffer))
    }
}

/// Number and place, and what an accepted call gave.
pub fn parts<T>(result: Result<T, Refusal>) -> (u32, u32, Option<T>) {
    match result {
        Ok(given) => (0, 0, Some(given)),
        Err(Refusal { number, place }) => (number, place, None),
    }
}

fn replied(result: Result<(), Refusal>) -> Reply {
    let (number, place, _) = parts(result);
    Reply { number, place }
}

pub fn wrote(result: Result<usize, Refusal>) -> Wrote {
    let (number, place, length) = parts(result);
    let length = length.unwrap_or(0) as u32;
    Wrote {
        number,
        place,
        length,
    }
}

/// What a call told, with all fields of the header's structs, and the whole
/// buffer with what lies around it.
#[derive(PartialEq, Eq, Debug)]
pub enum Told {
    Reply(Reply),
    Collected(Collected),
    Word(Word),
    Lock(Lock),
    Wrote(Wrote, Vec<u8>),
}

impl Told {
    /// Makes one call on an engine. A step is one step; a lent buffer is
    /// filled with this byte before.
    pub fn by(side: &mut dyn Calls, call: &Call, fill: u8) -> Told {
        match call {
            Call::Setup(record) => Told::Reply(side.setup(record)),
            Call::Begin {
                worker,
                lock,
                record,
            } => Told::Reply(side.begin(*worker, *lock, record)),
            Call::Step { worker, .. } => Told::Reply(side.step(*worker)),
            Call::Collect(worker) => Told::Collected(side.collect(*worker)),
            Call::Drop(worker) => Told::Reply(side.drop_worker(*worker)),
            Call::Word(word) => Told::Word(side.read_word(*word)),
            Call::Lock(lock) => Told::Lock(side.read_lock(*lock)),
            Call::Show { sheet, size } => in_buffer(fill, *size, |lent| side.show(*sheet, lent)),
            Call::Park { size } => in_buffer(fill, *size, |lent| side.park(lent)),
        }
    }

    /// The refusal's number, or 0.
    pub fn number(&self) -> u32 {
        match self {
            Told::Reply(told) => told.number,
            Told::Collected(told) => told.number,
            Told::Word(told) => told.number,
            Told::Lock(told) => told.number,
            Told::Wrote(told, _) => told.number,
        }
    }
}

/// Lends a buffer of this size; gives the answer, and the buffer with what
/// lies around it.
pub fn in_buffer(fill: u8, size: usize, call: impl FnOnce(&mut [u8]) -> Wrote) -> Told {
    let mut whole = vec![fill; AROUND + size + AROUND];
    let answer = call(&mut whole[AROUND..AROUND + size]);
    Told::Wrote(answer, whole)
}
