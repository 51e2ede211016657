//! Call files (request 01): one setup record, then the records of the calls
//! that a unit made. The calls are made again, with a line for each.

use crate::engine::{check_header, header, refused, Engine, Refusal};
use crate::job;
use crate::script::{perform, Call, Outcome, Told};

/// The longest file, in bytes.
pub const LONGEST_FILE: usize = 65_536;

/// How the walk of a file ended.
#[derive(Clone, Copy, PartialEq, Eq, PartialOrd, Ord, Debug)]
pub enum Ended {
    /// After the last record.
    Whole,
    /// The file is too long; nothing in it was looked at.
    TooLong,
    /// The setup is cut short.
    CutSetup,
    /// The setup is refused, with this number.
    Setup(u32),
    /// A record is refused, with this number: 5, 6 or 17.
    Record(u32),
}

/// What the walk of a file gives.
#[derive(Clone, PartialEq, Eq, Debug)]
pub struct Walked {
    pub lines: String,
    /// The state that the calls gave.
    pub engine: Engine,
    /// The first byte after the setup and the calls that were made.
    pub place: usize,
    pub ended: Ended,
}

/// The lines that the program writes for a file.
pub fn run(file: &[u8]) -> String {
    walk(file).lines
}

/// Walks a file: the setup, then call by call.
pub fn walk(file: &[u8]) -> Walked {
    let mut engine = Engine::blank();
    let mut reader = Reader { file, place: 0 };
    let mut lines = String::new();
    let ended = match set_up(&mut engine, &mut reader) {
        Ok(()) => make_calls(&mut engine, &mut reader, &mut lines),
        Err((ended, number)) => {
            lines = format!("{number}\n");
            ended
        }
    };
    let place = reader.place;
    Walked {
        lines,
        engine,
        place,
        ended,
    }
}

/// Makes the setup; or says how the walk ended, and the refusal's number.
fn set_up(engine: &mut Engine, reader: &mut Reader) -> Result<(), (Ended, u32)> {
    if reader.file.len() > LONGEST_FILE {
        return Err((Ended::TooLong, 5));
    }
    let record = reader.record().map_err(|_| (Ended::CutSetup, 5))?;
    if let Err(Refusal { number, .. }) = engine.setup(record) {
        return Err((Ended::Setup(number), number));
    }
    reader.place += record.len();
    Ok(())
}

/// Makes the calls. A record's refusal ends the walk after its line; one of
/// the call itself is a line like any other.
fn make_calls(engine: &mut Engine, reader: &mut Reader, lines: &mut String) -> Ended {
    for (index, call) in reader.enumerate() {
        let outcome = match &call {
            Ok(call) => perform(engine, call),
            Err(refusal) => Outcome {
                refusal: Some(*refusal),
                told: Told::Nothing,
            },
        };
        *lines += &line(index, &outcome);
        if let Err(refusal) = call {
            return Ended::Record(refusal.number);
        }
    }
    Ended::Whole
}

/// The line of a call: its index, its refusal's number, and what an accepted
/// collect has told, three numbers by request 02; two zeros for any other.
fn line(index: usize, outcome: &Outcome) -> String {
    let number = outcome.refusal.map_or(0, |refusal| refusal.number);
    match outcome.told {
        Told::Collected(Some(told)) => format!("{index} {number} {told}\n"),
        _ => format!("{index} {number} 0 0\n"),
    }
}

/// Holds the recorded bytes and its place among them. It does not pass a
/// record that is refused.
struct Reader<'a> {
    file: &'a [u8],
    place: usize,
}

impl<'a> Reader<'a> {
    /// The record at the place, as long as its length field says; 5 where it
    /// is cut short.
    fn record(&self) -> Result<&'a [u8], Refusal> {
        let rest = &self.file[self.place..];
        let &[low, high, ..] = rest else {
            return refused(5);
        };
        match rest.get(..usize::from(u16::from_le_bytes([low, high]))) {
            Some(record) => Ok(record),
            None => refused(5),
        }
    }

    /// The call of the record at the place.
    fn call(&mut self) -> Result<Call, Refusal> {
        let record = self.record()?;
        let call = read_call(record)?;
        self.place += record.len();
        Ok(call)
    }
}

/// The calls up to the end of the file.
impl Iterator for Reader<'_> {
    type Item = Result<Call, Refusal>;

    fn next(&mut self) -> Option<Result<Call, Refusal>> {
        (self.place < self.file.len()).then(|| self.call())
    }
}

/// The call that a record says: refused 5, then 6, then 17.
fn read_call(record: &[u8]) -> Result<Call, Refusal> {
    check_header(record, 3)?;
    let &[_, _, _, _, call, worker, lock, 0, ref program @ ..] = record else {
        return refused(17);
    };
    let worker = u32::from(worker);
    match (call, lock, program) {
        (0, _, program) => {
            let lock = u32::from(lock);
            let Some(record) = job::record(program) else {
                return refused(17);
            };
            Ok(Call::Begin {
                worker,
                lock,
                record,
            })
        }
        (1, 0, []) => Ok(Call::Step { worker, times: 1 }),
        (2, 0, []) => Ok(Call::Collect(worker)),
        (3, 0, []) => Ok(Call::Drop(worker)),
        _ => refused(17),
    }
}

/// The record of a begin, collect or drop, and of one step. A worker or lock
/// that does not fit its byte is written as 255, which is refused as well. A
/// begin whose bytes are no job record, by 5 or 6, has none.
pub fn call_record(call: &Call) -> Option<Vec<u8>> {
    let no_program: &[u8] = &[];
    let (number, worker, lock, program) = match call {
        Call::Begin {
            worker,
            lock,
            record,
        } => {
            job::program(record, job::NOW).ok()?;
            (0, *worker, *lock, &record[4..])
        }
        Call::Step { worker, .. } => (1, *worker, 0, no_program),
        Call::Collect(worker) => (2, *worker, 0, no_program),
        Call::Drop(worker) => (3, *worker, 0, no_program),
        _ => return None,
    };
    let byte = |number: u32| u8::try_from(number).unwrap_or(u8::MAX);
    let mut record = header(8 + program.len(), 3);
    record.extend([number, byte(worker), byte(lock), 0]);
    record.extend(program);
    Some(record)
}
