//! What holding this program against another one takes, whatever is given to
//! both: what the other program writes, where it differs, and what is kept of
//! the input that shows it.

use crate::script;
use std::io::{self, Read, Write};
use std::process::{Command, ExitCode, Stdio};
use std::thread;

/// What the words of the command line ask for.
pub struct Asked {
    pub seed: u64,
    /// How many random inputs, from the seed on.
    pub inputs: u64,
    pub program: String,
    /// Where an input that shows a difference is saved.
    pub saved: String,
}

impl Asked {
    /// Reads SEED N PROGRAM [FILE]; the file's name if none is given.
    fn read(words: &[String], unnamed: &str) -> Option<Asked> {
        if words.len() < 3 || words.len() > 4 {
            return None;
        }
        let saved = words.get(3).map_or(unnamed, |word| word);
        Some(Asked {
            seed: words[0].parse().ok()?,
            inputs: words[1].parse().ok()?,
            program: words[2].clone(),
            saved: saved.to_string(),
        })
    }
}

/// A comparing program: does what the command line asks for, and tells what
/// was equal or the first difference.
pub fn program(unnamed: &str, compare: fn(&Asked) -> Result<String, String>) -> ExitCode {
    let words: Vec<String> = std::env::args().skip(1).collect();
    let Some(asked) = Asked::read(&words, unnamed) else {
        eprintln!("usage: SEED N PROGRAM [FILE]");
        return ExitCode::from(2);
    };
    match compare(&asked) {
        Ok(equal) => {
            println!("compare: {equal}");
            ExitCode::SUCCESS
        }
        Err(difference) => {
            println!("compare: {difference}");
            ExitCode::FAILURE
        }
    }
}

/// The other program's lines for an input, from one process.
fn other_program(program: &str, bytes: &[u8]) -> io::Result<Vec<u8>> {
    let mut process = Command::new(program)
        .stdin(Stdio::piped())
        .stdout(Stdio::piped())
        .spawn()?;
    let mut input = process.stdin.take().expect("its input is a pipe");
    let mut output = process.stdout.take().expect("its output is a pipe");
    let mut written = Vec::new();
    thread::scope(|scope| {
        // It may stop reading early, where an input is too long or is ended
        // by a bad line: a broken pipe is then no fault.
        scope.spawn(move || input.write_all(bytes).is_ok());
        output.read_to_end(&mut written)
    })?;
    // Nothing is said of an exit status; only a process that was ended from
    // outside is a fault by itself.
    let status = process.wait()?;
    match status.code() {
        Some(_) => Ok(written),
        None => Err(io::Error::other(format!("it ended with {status}"))),
    }
}

/// What is wrong with what the other program does with an input.
pub struct Fault {
    pub words: String,
    /// The number of equal lines before the first difference; none where the
    /// other program did not come to its end.
    pub equal: Option<usize>,
}

/// Holds what the other program writes for an input against our lines, byte
/// by byte.
pub fn hold(program: &str, input: &[u8], ours: &[u8]) -> Result<(), Fault> {
    match other_program(program, input) {
        Ok(theirs) if ours == theirs => Ok(()),
        Ok(theirs) => Err(difference(ours, &theirs)),
        Err(error) => Err(Fault {
            words: format!("{program}: {error}"),
            equal: None,
        }),
    }
}

/// The first difference. Where no line differs, the ends of the bytes do.
fn difference(ours: &[u8], theirs: &[u8]) -> Fault {
    let (our_lines, their_lines) = (script::lines(ours), script::lines(theirs));
    let pairs = our_lines.iter().zip(&their_lines);
    let equal = pairs.take_while(|(our, their)| our == their).count();
    let line = |lines: &[&[u8]], all: &[u8]| match lines.get(equal) {
        Some(line) => String::from_utf8_lossy(line).into_owned(),
        None => format!("(no such line; {} bytes in all)", all.len()),
    };
    let (our, their) = (line(&our_lines, ours), line(&their_lines, theirs));
    let words =
        format!("first difference after {equal} equal lines\nsecond: {our}\nother:  {their}");
    let equal = Some(equal);
    Fault { words, equal }
}

/// Saves an input that shows a fault; tells where.
pub fn save(name: &str, input: &[u8], file: &str) -> String {
    match std::fs::write(file, input) {
        Ok(()) => format!("{name} saved to {file}"),
        Err(error) => format!("{name} not saved to {file}: {error}"),
    }
}
