//! The script language: one call a line in, one line of outcome out.

use crate::engine::{Collected, Engine, LockWord, Refusal, Word};
use std::fmt;

/// The longest script, in bytes.
pub const LONGEST_SCRIPT: usize = 65_536;
/// The longest record in a script, and the largest lent buffer.
pub const LONGEST_BYTES: usize = 512;
/// What a lent buffer is filled with before the call.
pub const FILL: u8 = 0xA5;

/// One call. Worker, lock, word and sheet are the caller's numbers as given.
#[derive(Clone, PartialEq, Eq, Debug)]
pub enum Call {
    Setup(Vec<u8>),
    Begin {
        worker: u32,
        lock: u32,
        record: Vec<u8>,
    },
    /// Up to so many steps; a line without a number means one.
    Step {
        worker: u32,
        times: u32,
    },
    Collect(u32),
    Drop(u32),
    Word(u32),
    Lock(u32),
    Show {
        sheet: u32,
        size: usize,
    },
    Park {
        size: usize,
    },
}

/// What a call tells beside its refusal; none is collected where a collect
/// is refused.
#[derive(Clone, PartialEq, Eq, Debug)]
pub enum Told {
    Nothing,
    Steps(u32),
    Collected(Option<Collected>),
    Word(Word),
    Lock(LockWord),
    Written { count: usize, buffer: Vec<u8> },
}

/// The outcome of a call.
#[derive(Clone, PartialEq, Eq, Debug)]
pub struct Outcome {
    pub refusal: Option<Refusal>,
    pub told: Told,
}

impl Outcome {
    /// Keeps the refusal, and what is told of a refused call.
    fn of<T>(result: Result<T, Refusal>, refused: Told, told: impl FnOnce(T) -> Told) -> Outcome {
        match result {
            Ok(value) => Outcome {
                refusal: None,
                told: told(value),
            },
            Err(refusal) => Outcome {
                refusal: Some(refusal),
                told: refused,
            },
        }
    }
}

impl fmt::Display for Outcome {
    fn fmt(&self, out: &mut fmt::Formatter) -> fmt::Result {
        let (number, place) = match self.refusal {
            Some(Refusal { number, place }) => (number, place),
            None => (0, 0),
        };
        write!(out, "{number} {place}")?;
        match &self.told {
            Told::Nothing => Ok(()),
            Told::Steps(steps) => write!(out, " {steps}"),
            Told::Collected(Some(told)) => write!(out, " {told}"),
            Told::Collected(None) => write!(out, " 0 0 0"),
            Told::Word(word) => write!(out, " {} {} {}", word.value, word.count, word.guard),
            Told::Lock(lock) => match lock.sheet {
                Some(sheet) => write!(out, " {} {sheet}", lock.turn),
                None => write!(out, " {} -", lock.turn),
            },
            Told::Written { count, buffer } => write!(out, " {count} {}", hex(buffer)),
        }
    }
}

/// The numbers that a line has of an accepted collect, in a script's output
/// and a file's.
impl fmt::Display for Collected {
    fn fmt(&self, out: &mut fmt::Formatter) -> fmt::Result {
        let (answer, steps, filled) = (self.answer.number(), self.steps, self.filled);
        write!(out, "{answer} {steps} {filled}")
    }
}

/// Bytes as a script writes them, in lower case.
pub fn hex(bytes: &[u8]) -> String {
    if bytes.is_empty() {
        return "-".to_string();
    }
    const DIGITS: &[u8; 16] = b"0123456789abcdef";
    let mut text = String::with_capacity(2 * bytes.len());
    for &byte in bytes {
        text.push(char::from(DIGITS[usize::from(byte >> 4)]));
        text.push(char::from(DIGITS[usize::from(byte & 15)]));
    }
    text
}

/// A call written as its line, without the newline.
impl fmt::Display for Call {
    fn fmt(&self, out: &mut fmt::Formatter) -> fmt::Result {
        match self {
            Call::Setup(record) => write!(out, "setup {}", hex(record)),
            Call::Begin {
                worker,
                lock,
                record,
            } => write!(out, "begin {worker} {lock} {}", hex(record)),
            Call::Step { worker, times: 1 } => write!(out, "step {worker}"),
            Call::Step { worker, times } => write!(out, "step {worker} {times}"),
            Call::Collect(worker) => write!(out, "collect {worker}"),
            Call::Drop(worker) => write!(out, "drop {worker}"),
            Call::Word(word) => write!(out, "word {word}"),
            Call::Lock(lock) => write!(out, "lock {lock}"),
            Call::Show { sheet, size } => write!(out, "show {sheet} {size}"),
            Call::Park { size } => write!(out, "park {size}"),
        }
    }
}

/// Makes one call on the engine.
pub fn perform(engine: &mut Engine, call: &Call) -> Outcome {
    match call {
        Call::Setup(record) => nothing_told(engine.setup(record)),
        Call::Begin {
            worker,
            lock,
            record,
        } => nothing_told(engine.begin(*worker, *lock, record)),
        Call::Step { worker, times } => steps(engine, *worker, *times),
        Call::Collect(worker) => {
            let refused = Told::Collected(None);
            Outcome::of(engine.collect(*worker), refused, |told| {
                Told::Collected(Some(told))
            })
        }
        Call::Drop(worker) => nothing_told(engine.drop_worker(*worker)),
        Call::Word(word) => {
            let (value, count, guard) = (0, 0, 0);
            let refused = Told::Word(Word {
                value,
                count,
                guard,
            });
            Outcome::of(engine.read_word(*word), refused, Told::Word)
        }
        Call::Lock(lock) => {
            let (turn, sheet) = (0, None);
            let refused = Told::Lock(LockWord { turn, sheet });
            Outcome::of(engine.read_lock(*lock), refused, Told::Lock)
        }
        Call::Show { sheet, size } => written(*size, |buffer| engine.show(*sheet, buffer)),
        Call::Park { size } => written(*size, |buffer| engine.park(buffer)),
    }
}

fn nothing_told(result: Result<(), Refusal>) -> Outcome {
    Outcome::of(result, Told::Nothing, |()| Told::Nothing)
}

/// Up to so many steps, until one is refused.
fn steps(engine: &mut Engine, worker: u32, times: u32) -> Outcome {
    let mut accepted = 0;
    let mut refusal = None;
    while accepted < times && refusal.is_none() {
        match engine.step(worker) {
            Ok(()) => accepted += 1,
            Err(given) => refusal = Some(given),
        }
    }
    let told = Told::Steps(accepted);
    Outcome { refusal, told }
}

/// A call that writes into a lent buffer of so many bytes.
fn written(size: usize, call: impl FnOnce(&mut [u8]) -> Result<usize, Refusal>) -> Outcome {
    let mut buffer = vec![FILL; size];
    let result = call(&mut buffer);
    let refusal = result.err();
    let count = result.unwrap_or(0);
    let told = Told::Written { count, buffer };
    Outcome { refusal, told }
}

/// Reads one line that is neither empty nor a remark.
pub fn parse(line: &[u8]) -> Option<Call> {
    let words: Vec<&[u8]> = line.split(|&byte| byte == b' ').collect();
    Some(match words.as_slice() {
        [b"setup", record] => Call::Setup(bytes(record)?),
        [b"begin", worker, lock, record] => Call::Begin {
            worker: number(worker)?,
            lock: number(lock)?,
            record: bytes(record)?,
        },
        [b"step", worker] => Call::Step {
            worker: number(worker)?,
            times: 1,
        },
        [b"step", worker, times] => Call::Step {
            worker: number(worker)?,
            times: number(times)?,
        },
        [b"collect", worker] => Call::Collect(number(worker)?),
        [b"drop", worker] => Call::Drop(number(worker)?),
        [b"word", word] => Call::Word(number(word)?),
        [b"lock", lock] => Call::Lock(number(lock)?),
        [b"show", sheet, size] => Call::Show {
            sheet: number(sheet)?,
            size: buffer_size(size)?,
        },
        [b"park", size] => Call::Park {
            size: buffer_size(size)?,
        },
        _ => return None,
    })
}

/// One to ten decimal digits, at most 4,294,967,295.
fn number(word: &[u8]) -> Option<u32> {
    if word.is_empty() || word.len() > 10 {
        return None;
    }
    let mut value = 0u64;
    for &digit in word {
        if !digit.is_ascii_digit() {
            return None;
        }
        value = 10 * value + u64::from(digit - b'0');
    }
    u32::try_from(value).ok()
}

fn buffer_size(word: &[u8]) -> Option<usize> {
    let size = number(word)? as usize;
    (size <= LONGEST_BYTES).then_some(size)
}

/// 1 to 512 bytes of two hexadecimal digits each, or `-` for none.
fn bytes(word: &[u8]) -> Option<Vec<u8>> {
    if word == b"-" {
        return Some(Vec::new());
    }
    if word.is_empty() || word.len() & 1 != 0 || word.len() > 2 * LONGEST_BYTES {
        return None;
    }
    let digit = |byte: u8| char::from(byte).to_digit(16).map(|digit| digit as u8);
    word.chunks(2)
        .map(|pair| Some(16 * digit(pair[0])? + digit(pair[1])?))
        .collect()
}

/// The lines of a script: the last one perhaps without a newline, and what
/// comes after the last newline, if empty, is none.
pub fn lines(script: &[u8]) -> Vec<&[u8]> {
    let mut lines: Vec<&[u8]> = script.split(|&byte| byte == b'\n').collect();
    if lines.last().is_some_and(|last| last.is_empty()) {
        lines.pop();
    }
    lines
}

/// Whether a line is passed over.
pub fn passed_over(line: &[u8]) -> bool {
    line.is_empty() || line[0] == b'#'
}

/// Runs a script on the blank state and gives the lines it writes.
pub fn run(script: &[u8]) -> String {
    run_on(&mut Engine::blank(), script)
}

/// Runs a script on an engine and gives the lines it writes.
pub fn run_on(engine: &mut Engine, script: &[u8]) -> String {
    if script.len() > LONGEST_SCRIPT {
        return "0 ?\n".to_string();
    }
    let mut output = String::new();
    for (index, line) in lines(script).into_iter().enumerate() {
        if passed_over(line) {
            continue;
        }
        let number = index + 1;
        match parse(line) {
            Some(call) => output += &format!("{number} {}\n", perform(engine, &call)),
            None => {
                output += &format!("{number} ?\n");
                break;
            }
        }
    }
    output
}
