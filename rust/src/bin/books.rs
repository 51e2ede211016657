//! Keeps the books of standard jobs, in files: lists one, checks one, finds a
//! job in a line's and the factory's, adds a job. Each book is read and
//! written by the proved archive. A book with a new job replaces its file only
//! whole. It exits with 0, with 1 where the archive refuses, with 2 where the
//! command line makes no sense or a file can't be read or written.
#![forbid(unsafe_code)]

use chantgarden::book::{self, Book, ENTRY_BYTES};
use chantgarden::Refusal;
use std::fs::{self, File};
use std::io::Write;
use std::path::{Path, PathBuf};
use std::process::ExitCode;

const USAGE: &str = "\
usage: books list FILE                    the jobs of a book, one a line
       books check FILE                   is it a good book?
       books find NUMBER LINE [FACTORY]   the job of this number, the line book first
       books add NUMBER RECORD BOOK       puts the job record in the file RECORD into the book
NUMBER is 0 to 65535. A book and a record are files of plain bytes; an empty file is a book without jobs.";

/// The bytes of an entry before its job record.
const HEAD: usize = 6;

/// Why it is not done.
enum Fault {
    /// The archive refuses, in words.
    Refused(String),
    /// A file can't be read or written.
    File(String),
    Usage,
}

/// What is told of it on standard output, to its end.
type Done = Result<String, Fault>;

fn main() -> ExitCode {
    let words: Vec<String> = std::env::args().skip(1).collect();
    let words: Vec<&str> = words.iter().map(String::as_str).collect();
    let (fault, status) = match run(&words) {
        Ok(text) => return say(&text),
        Err(Fault::Refused(why)) => (why, 1),
        Err(Fault::File(why)) => (why, 2),
        Err(Fault::Usage) => (USAGE.to_string(), 2),
    };
    eprintln!("{fault}");
    ExitCode::from(status)
}

/// Writes the text, last of all.
fn say(text: &str) -> ExitCode {
    let mut out = std::io::stdout();
    match out.write_all(text.as_bytes()).and_then(|()| out.flush()) {
        Ok(()) => ExitCode::SUCCESS,
        Err(error) => {
            eprintln!("it is done, but can't be told: {error}");
            ExitCode::from(2)
        }
    }
}

fn run(words: &[&str]) -> Done {
    match *words {
        ["list", file] => list(file),
        ["check", file] => check(file),
        ["find", number, line] => find(asked(number)?, line, None),
        ["find", number, line, factory] => find(asked(number)?, line, Some(factory)),
        ["add", number, record, book] => add(asked(number)?, record, book),
        _ => Err(Fault::Usage),
    }
}

fn asked(number: &str) -> Result<u32, Fault> {
    number.parse().map_err(|_| Fault::Usage)
}

fn read(file: &str) -> Result<Vec<u8>, Fault> {
    fs::read(file).map_err(|error| at_file(file, error))
}

fn at_file(file: &str, error: impl std::fmt::Display) -> Fault {
    Fault::File(format!("{file}: {error}"))
}

/// A book that the archive finds good.
fn good(file: &str) -> Result<Vec<u8>, Fault> {
    let bytes = read(file)?;
    let checked = book::check(&bytes);
    checked.map_err(|no| malformed(file, no))?;
    Ok(bytes)
}

/// The number and the job record's length of each entry of a good book, with
/// the offset of that record.
fn entries(book: &[u8]) -> Vec<(u16, usize, usize)> {
    let mut all = Vec::new();
    let mut offset = 0;
    while let Some([low, high, _, _, number @ ..]) = book[offset..].first_chunk::<HEAD>() {
        let length = usize::from(u16::from_le_bytes([*low, *high]));
        let number = u16::from_le_bytes(*number);
        all.push((number, offset + HEAD, length - HEAD));
        offset += length;
    }
    all
}

fn list(file: &str) -> Done {
    let mut text = String::new();
    for (number, offset, length) in entries(&good(file)?) {
        let instructions = counted((length - 4) / 4, "instruction");
        let line = format!("{number}: {instructions}, {length} bytes from offset {offset}\n");
        text.push_str(&line);
    }
    Ok(text)
}

/// So many of something.
fn counted(many: usize, what: &str) -> String {
    let plural = if many == 1 { "" } else { "s" };
    format!("{many} {what}{plural}")
}

fn check(file: &str) -> Done {
    let bytes = good(file)?;
    let jobs = counted(entries(&bytes).len(), "job");
    let length = bytes.len();
    Ok(format!("{file} is good: {jobs}, {length} bytes\n"))
}

fn find(number: u32, line: &str, factory: Option<&str>) -> Done {
    let in_line = read(line)?;
    let in_factory = factory.map_or(Ok(Vec::new()), read)?;
    let name = |book| match book {
        Book::Line => ("line", line),
        Book::Factory => ("factory", factory.unwrap_or_default()),
    };
    let found = match book::find(&in_line, &in_factory, number) {
        Ok(found) => found,
        Err(no) => return Err(not_found(no.refusal, number, no.book.map(name))),
    };
    let (which, file) = name(found.book);
    let (record, offset) = (hexadecimal(found.record), found.offset);
    Ok(format!(
        "{record}\n{which} book {file}, from offset {offset}\n"
    ))
}

fn hexadecimal(bytes: &[u8]) -> String {
    let digits = bytes.iter().map(|byte| format!("{byte:02x}"));
    digits.collect()
}

/// Adds a job; the file is replaced only where the whole new book is written.
fn add(number: u32, record: &str, file: &str) -> Done {
    let job = read(record)?;
    // The book itself, where its name is a link to it.
    let path = fs::canonicalize(file).map_err(|error| at_file(file, error))?;
    let new = NewFile::beside(&path)?;
    let old = fs::read(&path).map_err(|error| at_file(file, error))?;
    let mut buffer = vec![0; old.len() + ENTRY_BYTES];
    let length = book::add(&old, number, &job, &mut buffer)
        .map_err(|no| not_added(no, number, record, file))?;
    new.replace(&path, &buffer[..length])
        .map_err(|error| at_file(file, error))?;
    Ok(format!("{file} has job {number} now, and {length} bytes\n"))
}

/// A temporary file beside a book. While it is there no second one is made, so
/// that of two that add at a time neither loses the other's job. It takes the
/// book's place or is removed, unless the program is cut off.
struct NewFile {
    file: File,
    path: PathBuf,
    renamed: bool,
}

impl NewFile {
    fn beside(book: &Path) -> Result<NewFile, Fault> {
        let mut name = book.file_name().unwrap_or_default().to_os_string();
        name.push(".new");
        let path = book.with_file_name(name);
        match File::create_new(&path) {
            Ok(file) => Ok(NewFile {
                file,
                path,
                renamed: false,
            }),
            Err(error) => {
                let shown = path.display();
                let why = format!("{shown}: {error} (it is there while a job is added; where none is being added, remove it)");
                Err(Fault::File(why))
            }
        }
    }

    /// Puts these bytes in the book's place, with who may read and write it as
    /// before.
    fn replace(mut self, book: &Path, bytes: &[u8]) -> std::io::Result<()> {
        self.file.write_all(bytes)?;
        self.file
            .set_permissions(fs::metadata(book)?.permissions())?;
        self.file.sync_all()?;
        fs::rename(&self.path, book)?;
        self.renamed = true;
        Ok(())
    }
}

impl Drop for NewFile {
    fn drop(&mut self) {
        // What has its name after it was renamed is another program's.
        if !self.renamed {
            let _ = fs::remove_file(&self.path);
        }
    }
}

fn malformed(file: &str, no: Refusal) -> Fault {
    let Refusal { number, place } = no;
    Fault::Refused(format!(
        "refused {number}: the book {file} is malformed: its first bad entry begins at offset {place}"
    ))
}

/// A refused lookup; the book that is malformed has a name and a file.
fn not_found(no: Refusal, number: u32, book: Option<(&str, &str)>) -> Fault {
    match book {
        Some((which, file)) => malformed(&format!("{file} (the {which} book)"), no),
        None => Fault::Refused(format!("refused {}: {}", no.number, no_such(number))),
    }
}

fn no_such(number: u32) -> String {
    match number {
        0..=65_535 => format!("no book has a job {number}"),
        _ => format!("job numbers end at 65535, so there is no job {number}"),
    }
}

/// A refused addition, in words that name the file at fault.
fn not_added(no: Refusal, number: u32, record: &str, book: &str) -> Fault {
    let place = no.place;
    let why = match no.number {
        18 => return malformed(book, no),
        19 => no_such(number),
        5 => format!("{record} is no job record: its length is wrong"),
        6 => format!("{record} is no job record: its kind is not 1 or 4"),
        7 => format!(
            "instruction {place} of {record} (from 0) is badly formed, or is the last and no halt"
        ),
        20 => format!("{book} has a job {number} already"),
        _ => no.words().to_string(),
    };
    Fault::Refused(format!("refused {}: {why}", no.number))
}
