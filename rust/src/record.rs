//! Calls that leave a record of themselves.

use crate::{lent, Collected, Engine, Refusal};

/// Makes calls on an engine and hands the record of each to a sink, before
/// the caller has the call's answer. The records from one setup's up to the
/// next are a file that the program `replay` takes, up to 65,536 bytes: it
/// makes the calls again and tells the same answers.
///
/// Refused calls have records too, but for three: a setup (the file before
/// it ends there), a call on the blank state (there is no file), and a begin
/// whose bytes are no job record. The last two change nothing.
///
/// ```
/// use chantgarden::{Answer, Engine, Recorder, Refusal};
///
/// // One lock; it guards the only word, which holds 5. The job answers yes.
/// let setup = [15, 0, 2, 0, 1, 1, 0, 5, 0, 0, 0, 0, 0, 0, 0];
/// let job = [8, 0, 1, 0, 0, 1, 0, 0];
/// let mut engine = Engine::blank();
/// let mut file = Vec::new();
/// let mut recorder = Recorder::new(&mut engine, |record| file.extend(record));
/// recorder.setup(&setup)?;
/// recorder.begin(0, 0, &job)?;
/// while recorder.step(0).is_ok() {}
/// assert_eq!(recorder.collect(0)?.answer, Answer::RanYes);
/// assert_eq!(file[..15], setup);
/// assert_eq!(file[15..27], [12, 0, 3, 0, 0, 0, 0, 0, 0, 1, 0, 0]);
/// assert_eq!(file[27..35], [8, 0, 3, 0, 1, 0, 0, 0]);
/// assert!(file.ends_with(&[8, 0, 3, 0, 2, 0, 0, 0]));
/// # Ok::<(), Refusal>(())
/// ```
#[must_use = "only the calls made through it are recorded"]
pub struct Recorder<'a, S> {
    engine: &'a mut Engine,
    sink: S,
}

impl<'a, S: FnMut(&[u8])> Recorder<'a, S> {
    /// Records the calls that are made through it.
    pub fn new(engine: &'a mut Engine, sink: S) -> Recorder<'a, S> {
        Recorder { engine, sink }
    }

    /// The engine, for the calls that only read.
    pub fn engine(&self) -> &Engine {
        self.engine
    }

    /// As [`Engine::setup`]. Its record, where it is accepted, begins a file.
    pub fn setup(&mut self, record: &[u8]) -> Result<(), Refusal> {
        self.engine.setup(record)?;
        (self.sink)(record);
        Ok(())
    }

    /// As [`Engine::begin`].
    pub fn begin(&mut self, worker: u32, lock: u32, record: &[u8]) -> Result<(), Refusal> {
        self.hand_out(lent::BEGIN, worker, lock, record);
        self.engine.begin(worker, lock, record)
    }

    /// As [`Engine::step`].
    pub fn step(&mut self, worker: u32) -> Result<(), Refusal> {
        self.hand_out(lent::STEP, worker, 0, &[]);
        self.engine.step(worker)
    }

    /// As [`Engine::collect`].
    pub fn collect(&mut self, worker: u32) -> Result<Collected, Refusal> {
        self.hand_out(lent::COLLECT, worker, 0, &[]);
        self.engine.collect(worker)
    }

    /// As [`Engine::drop_worker`].
    pub fn drop_worker(&mut self, worker: u32) -> Result<(), Refusal> {
        self.hand_out(lent::DROP, worker, 0, &[]);
        self.engine.drop_worker(worker)
    }

    /// The record of a call that is about to be made, where it has one.
    fn hand_out(&mut self, call: u32, worker: u32, lock: u32, record: &[u8]) {
        let mut buffer = [0; Engine::CALL_BYTES];
        let told = lent::record(call, worker, lock, record, &mut buffer);
        // Only the blank state has no lock 0.
        let blank = self.engine.read_lock(0).is_err();
        if told.number == 0 && !blank {
            (self.sink)(&buffer[..told.length as usize]);
        }
    }
}
