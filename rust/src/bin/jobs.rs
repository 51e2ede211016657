//! Jobs that a person can read and write: from the notation of docs/JOBS.md to
//! a record and back, and the jobs of a whole call file or script. It exits
//! with 0, with 1 where a text, a record or a file has a fault, each of which
//! is told in a line, with 2 where the command line makes no sense or a file
//! can't be read.
#![forbid(unsafe_code)]

use chantgarden::job::{Faults, Job};
use chantgarden::Engine;
use std::fs;
use std::io::{Read, Write};
use std::process::ExitCode;

const USAGE: &str = "\
usage: jobs hex FILE     from the notation to the job's record, in hexadecimal
       jobs bytes FILE   from the notation to the job's record, its plain bytes
       jobs text FILE    from a record, in hexadecimal or plain bytes, to the notation
       jobs list FILE    the jobs of a call file or of a script of calls, in the notation
FILE is a file, or - for standard input. docs/JOBS.md has the notation.";

/// Why it is not done.
enum Fault {
    /// What is wrong, a line each.
    Told(String),
    /// A file can't be read.
    File(String),
    Usage,
}

/// What goes to standard output, and what is wrong after that.
type Done = Result<(Vec<u8>, Option<String>), Fault>;

fn main() -> ExitCode {
    let words: Vec<String> = std::env::args().skip(1).collect();
    let words: Vec<&str> = words.iter().map(String::as_str).collect();
    let (fault, status) = match run(&words) {
        Ok((out, None)) => return say(&out, ExitCode::SUCCESS),
        Ok((out, Some(why))) => {
            let status = say(&out, ExitCode::from(1));
            eprintln!("{why}");
            return status;
        }
        Err(Fault::Told(why)) => (why, 1),
        Err(Fault::File(why)) => (why, 2),
        Err(Fault::Usage) => (USAGE.to_string(), 2),
    };
    eprintln!("{fault}");
    ExitCode::from(status)
}

fn say(bytes: &[u8], status: ExitCode) -> ExitCode {
    let mut out = std::io::stdout();
    match out.write_all(bytes).and_then(|()| out.flush()) {
        Ok(()) => status,
        Err(error) => {
            eprintln!("it can't be told: {error}");
            ExitCode::from(2)
        }
    }
}

fn run(words: &[&str]) -> Done {
    match *words {
        ["hex", file] => whole(hexadecimal(parsed(file)?.record()) + "\n"),
        ["bytes", file] => whole(parsed(file)?.record()),
        ["text", file] => whole(format!("{}\n", of_record(&read(file)?)?)),
        ["list", file] => Ok(list(&read(file)?)),
        _ => Err(Fault::Usage),
    }
}

fn whole(out: impl Into<Vec<u8>>) -> Done {
    Ok((out.into(), None))
}

fn read(file: &str) -> Result<Vec<u8>, Fault> {
    let mut bytes = Vec::new();
    let done = match file {
        "-" => std::io::stdin().read_to_end(&mut bytes).map(|_| bytes),
        _ => fs::read(file),
    };
    done.map_err(|error| Fault::File(format!("{file}: {error}")))
}

impl From<Faults> for Fault {
    fn from(faults: Faults) -> Fault {
        Fault::Told(faults.to_string())
    }
}

/// The job of a text.
fn parsed(file: &str) -> Result<Job, Fault> {
    let text = String::from_utf8(read(file)?).map_err(|error| {
        let good = error.utf8_error().valid_up_to();
        let line = error.as_bytes()[..good].split(|&byte| byte == b'\n').count();
        Fault::Told(format!("line {line}: a byte stands there that is no text: the notation may stand there, or a comment in UTF-8"))
    })?;
    Ok(text.parse::<Job>()?)
}

/// The job of a record, which is hexadecimal where no byte of it is 0: a job
/// record has a 0 in its kind.
fn of_record(bytes: &[u8]) -> Result<Job, Fault> {
    let record = match bytes.contains(&0) {
        true => bytes.to_vec(),
        false => from_hexadecimal(bytes).map_err(Fault::Told)?,
    };
    Ok(Job::from_record(&record)?)
}

fn hexadecimal(bytes: &[u8]) -> String {
    let digits = bytes.iter().map(|byte| format!("{byte:02x}"));
    digits.collect()
}

/// The bytes of two digits each, with any room between the digits.
fn from_hexadecimal(text: &[u8]) -> Result<Vec<u8>, String> {
    let mut digits = Vec::new();
    for &byte in text.iter().filter(|byte| !byte.is_ascii_whitespace()) {
        let digit = char::from(byte).to_digit(16).ok_or_else(|| {
            let stands = char::from(byte).escape_debug();
            format!("the record: `{stands}` stands where a hexadecimal digit may stand: 0 to 9, a to f or A to F")
        })?;
        digits.push(digit as u8);
    }
    let many = digits.len();
    match many % 2 {
        0 => Ok(digits.chunks(2).map(|two| 16 * two[0] + two[1]).collect()),
        _ => Err(format!(
            "the record: {many} hexadecimal digits stand there: an even number may stand there"
        )),
    }
}

/// The jobs of a call file, which begins with a setup record, or of a script;
/// and what is wrong with the file where they end.
fn list(file: &[u8]) -> (Vec<u8>, Option<String>) {
    let mut listed = Listed::default();
    let done = match file {
        [_, _, 2, 0, ..] => call_file(&mut listed, file),
        _ => script(&mut listed, file),
    };
    (listed.text.into_bytes(), done.err())
}

/// The jobs so far, and the setup under which they begin.
#[derive(Default)]
struct Listed {
    text: String,
    setup: Option<Vec<u8>>,
}

impl Listed {
    /// From now on this setup, where the archive accepts it.
    fn set_up(&mut self, record: &[u8]) -> Result<(), String> {
        let told = Engine::blank().setup(record);
        self.setup = told.is_ok().then(|| record.to_vec());
        told.map_err(|refusal| refusal.to_string())
    }

    /// A begin: where it stands, its worker and lock, its job, and what is
    /// wrong with that.
    fn begin(&mut self, at: &str, worker: u32, lock: u32, record: &[u8]) {
        self.text += &format!("{at}: worker {worker}, lock {lock}\n");
        match Job::from_record(record) {
            Ok(job) => {
                self.lines("    ", &job.to_string());
                let faults = self.under(&job, lock);
                self.lines("    # ", &faults);
            }
            Err(faults) => self.lines("    # ", &faults.to_string()),
        }
    }

    fn under(&self, job: &Job, lock: u32) -> String {
        let Some(setup) = &self.setup else {
            return "no setup before it is accepted, so there is no lock (refused 2)".to_string();
        };
        match job.under(setup, lock) {
            Ok(faults) => Faults(faults).to_string(),
            Err(refusal) => refusal.to_string(),
        }
    }

    fn lines(&mut self, before: &str, text: &str) {
        for line in text.lines() {
            self.text += &format!("{before}{line}\n");
        }
    }
}

/// A setup record and then a record for each call, as request 01 has them.
fn call_file(listed: &mut Listed, file: &[u8]) -> Result<(), String> {
    let (setup, mut rest) = first_record(file).ok_or("the setup is cut short (refused 5)")?;
    listed
        .set_up(setup)
        .map_err(|why| format!("the setup is {why}"))?;
    let mut index = 0;
    while !rest.is_empty() {
        let at = format!("call {index}");
        let bad = |number: u32, why: &str| format!("{at}: {why} (refused {number})");
        let (record, after) = first_record(rest)
            .filter(|(record, _)| record.len() >= 4)
            .ok_or_else(|| bad(5, "its record is cut short, or its length field below 4"))?;
        if record[2..4] != [3, 0] {
            return Err(bad(6, "the record's kind is not 3"));
        }
        match record[4..] {
            [0, worker, lock, 0, ref program @ ..] if is_program(program) => {
                let job = job_record(program);
                listed.begin(&at, worker.into(), lock.into(), &job);
            }
            [1..=3, _, 0, 0] => (),
            _ => return Err(bad(17, "the record makes no call")),
        }
        (rest, index) = (after, index + 1);
    }
    Ok(())
}

/// The record at the front, as long as its length field says, and the rest.
fn first_record(bytes: &[u8]) -> Option<(&[u8], &[u8])> {
    let [low, high] = *bytes.first_chunk()?;
    bytes.split_at_checked(usize::from(u16::from_le_bytes([low, high])))
}

/// By its length, 1 to 64 instructions.
fn is_program(bytes: &[u8]) -> bool {
    bytes.len().is_multiple_of(4) && (1..=64).contains(&(bytes.len() / 4))
}

/// The job record of a call record's instructions, of the kind of their count.
fn job_record(program: &[u8]) -> Vec<u8> {
    let kind = if program.len() <= 4 * 32 { 1 } else { 4 };
    let length = 4 + program.len() as u16;
    let head = [length, kind].map(u16::to_le_bytes).concat();
    [&head, program].concat()
}

/// The first words of a script's lines.
const CALLS: [&str; 9] = [
    "setup", "begin", "step", "collect", "drop", "word", "lock", "show", "park",
];

/// One call a line, as the program `trial` takes them; of the calls that bring
/// no record only the first word is looked at.
fn script(listed: &mut Listed, file: &[u8]) -> Result<(), String> {
    for (index, line) in file.split(|&byte| byte == b'\n').enumerate() {
        let at = format!("line {}", index + 1);
        if line.is_empty() || line[0] == b'#' {
            continue;
        }
        let line = String::from_utf8_lossy(line);
        let words: Vec<&str> = line.split(' ').collect();
        match *words.as_slice() {
            ["setup", record] => {
                let record = script_bytes(record).ok_or_else(|| no_bytes(&at, record))?;
                // A refused one leaves the blank state, and the script goes on.
                let _ = listed.set_up(&record);
            }
            ["begin", worker, lock, record] => {
                let worker = number(worker).ok_or_else(|| no_number(&at, worker))?;
                let lock = number(lock).ok_or_else(|| no_number(&at, lock))?;
                let record = script_bytes(record).ok_or_else(|| no_bytes(&at, record))?;
                listed.begin(&at, worker, lock, &record);
            }
            ["setup", ..] => return Err(format!("{at}: `setup` and a record may stand there")),
            ["begin", ..] => {
                let may = "`begin`, a worker, a lock and a record";
                return Err(format!("{at}: {may} may stand there, a space between each"));
            }
            [call, ..] if CALLS.contains(&call) => (),
            _ => return Err(no_call(&at, words[0])),
        }
    }
    Ok(())
}

fn no_call(at: &str, word: &str) -> String {
    let (shown, calls) = (short(word), CALLS.join(", "));
    format!(
        "{at}: `{shown}` stands where a call may stand: {calls}; or a remark, which begins with #"
    )
}

fn no_number(at: &str, word: &str) -> String {
    let shown = short(word);
    format!("{at}: `{shown}` stands where a number may stand: 0 to 4294967295")
}

fn no_bytes(at: &str, word: &str) -> String {
    let shown = short(word);
    format!("{at}: `{shown}` stands where a record may stand: two hexadecimal digits a byte, 512 bytes at most, or - for none")
}

/// The first of a word's letters, in one line.
fn short(word: &str) -> String {
    let first: String = word.chars().take(40).collect();
    first.escape_debug().to_string()
}

/// One to ten decimal digits.
fn number(word: &str) -> Option<u32> {
    let digits = word.bytes().all(|byte| byte.is_ascii_digit());
    (digits && word.len() <= 10)
        .then(|| word.parse().ok())
        .flatten()
}

/// A record as a script has it.
fn script_bytes(word: &str) -> Option<Vec<u8>> {
    match word {
        "-" => Some(Vec::new()),
        "" => None,
        _ if word.contains(|letter: char| letter.is_whitespace()) => None,
        _ => from_hexadecimal(word.as_bytes())
            .ok()
            .filter(|bytes| bytes.len() <= 512),
    }
}
