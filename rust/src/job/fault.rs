//! What is wrong with a text or a record: where, what stands there and what
//! may stand there. Each fault is one line.

use super::{INSTRUCTIONS, SHORT};
use crate::Refusal;
use std::error::Error;
use std::fmt;

/// Where a fault lies.
#[derive(Clone, Copy, PartialEq, Eq, PartialOrd, Ord, Hash, Debug)]
pub enum At {
    /// A line of a text, from 1.
    Line(usize),
    /// A call of a [`Builder`](super::Builder), from 1.
    Call(usize),
    /// An instruction of a record, from 0, as refusals number them.
    Instruction(usize),
    /// The record as a whole.
    Record,
}

impl fmt::Display for At {
    fn fmt(&self, out: &mut fmt::Formatter<'_>) -> fmt::Result {
        match self {
            At::Line(line) => write!(out, "line {line}"),
            At::Call(call) => write!(out, "call {call}"),
            At::Instruction(place) => write!(out, "instruction {place}"),
            At::Record => write!(out, "the record"),
        }
    }
}

/// One fault.
#[derive(Clone, PartialEq, Eq, Hash, Debug)]
pub struct Fault {
    /// Where it lies.
    pub at: At,
    /// What stands there, and what may stand there.
    pub words: String,
    /// What begin tells of it, where it is a record's first: 5, 6 or 7, or 8
    /// of a word that the lock doesn't guard or that no unit has.
    pub refusal: Option<Refusal>,
}

impl Fault {
    pub(super) fn new(at: At, words: String) -> Fault {
        let refusal = None;
        Fault { at, words, refusal }
    }

    /// A fault that begin refuses with this number.
    pub(super) fn refused(number: u32, at: At, words: String) -> Fault {
        let place = match at {
            At::Instruction(place) => place as u32,
            _ => 0,
        };
        let refusal = Some(Refusal { number, place });
        Fault { at, words, refusal }
    }
}

impl fmt::Display for Fault {
    fn fmt(&self, out: &mut fmt::Formatter<'_>) -> fmt::Result {
        write!(out, "{}: {}", self.at, self.words)?;
        match self.refusal {
            Some(Refusal { number, .. }) => write!(out, " (refused {number})"),
            None => Ok(()),
        }
    }
}

/// All faults of a text or a record, one at least; shown as a line each.
#[derive(Clone, PartialEq, Eq, Hash, Debug)]
pub struct Faults(pub Vec<Fault>);

impl fmt::Display for Faults {
    fn fmt(&self, out: &mut fmt::Formatter<'_>) -> fmt::Result {
        let lines: Vec<String> = self.0.iter().map(Fault::to_string).collect();
        write!(out, "{}", lines.join("\n"))
    }
}

impl Error for Faults {}

impl From<Fault> for Faults {
    fn from(fault: Fault) -> Faults {
        Faults(vec![fault])
    }
}

/// What may stand where a register, a word, a number is wanted.
pub(super) const REGISTER: &str = "a register may stand: r0, r1, r2 or r3";
pub(super) const WORD: &str = "a word may stand: w0 to w63";
pub(super) const NUMBER: &str = "a number may stand: 0 to 65535";
pub(super) const ANSWER: &str = "an answer may stand: yes or no";
pub(super) const OVER: &str =
    "how far it goes may stand: a number from 1 on, or `to` and a label's name";
pub(super) const LABEL: &str = "a label's name may stand";
pub(super) const IF: &str = "`if` may stand";
pub(super) const EQUALS: &str = "`=` may stand";
pub(super) const INSTRUCTION: &str =
    "an instruction may stand: load, store, cam, set, add, sub, skip or halt";
pub(super) const NAME: &str =
    "a label's name may stand: a letter, then letters, digits, `-` or `_`";

/// What stands there, in a line of its own whatever it is; cut where it is long.
pub(super) fn quoted(word: &str) -> String {
    const LONGEST: usize = 40;
    let shown: String = word.chars().take(LONGEST).collect();
    let cut = if shown.len() < word.len() { ".." } else { "" };
    format!("`{}{cut}`", shown.escape_debug())
}

pub(super) fn stands(word: &str, may: &str) -> String {
    format!("{} stands where {may}", quoted(word))
}

pub(super) fn ends(line: &str, may: &str) -> String {
    format!("{} ends where {may}", quoted(line))
}

pub(super) fn more(word: &str, after: &str) -> String {
    let (word, after) = (quoted(word), quoted(after));
    format!("{word} stands after {after}, where only a comment may stand, which begins with #")
}

pub(super) fn no_halt(last: &str) -> String {
    let last = quoted(last);
    format!("{last} stands at the end, where a halt may stand: `halt yes` or `halt no`")
}

/// A skip with so many instructions after it.
pub(super) fn past_the_end(skip: &str, after: usize) -> String {
    let skip = quoted(skip);
    let many = counted(after, "instruction follows", "instructions follow");
    let may = match after {
        0 | 1 => "no skip may stand there".to_string(),
        2 => "`skip 1` may stand there".to_string(),
        _ => format!("`skip 1` to `skip {}` may stand there", after - 1),
    };
    format!("{skip} stands there and goes past the end: {many} it, so {may}")
}

/// A label that a skip can't go to, why, and those it can.
pub(super) fn no_end(name: &str, why: &str, may: &[&str]) -> String {
    let may = match may {
        [] => "a label further down, with an instruction before it and one after it,".to_string(),
        names => names.join(" or "),
    };
    let name = quoted(name);
    format!("{name} stands there, {why}: {may} may stand there")
}

pub(super) fn again(name: &str, first: At) -> String {
    let name = quoted(name);
    format!("the label {name} stands there, which stands at {first} already: a new name may stand there")
}

pub(super) fn too_many(instruction: &str) -> String {
    let (it, next) = (quoted(instruction), INSTRUCTIONS + 1);
    format!("{it} stands there as instruction number {next}: a job has 1 to {INSTRUCTIONS}")
}

pub(super) fn none_at_all() -> String {
    format!("no instruction stands there: 1 to {INSTRUCTIONS} may stand there, the last a halt")
}

/// A word that the lock doesn't guard, with the lock that does.
pub(super) fn unguarded(instruction: &str, word: u8, lock: u32, guard: Option<u32>) -> String {
    let it = quoted(instruction);
    let why = match guard {
        Some(guard) => format!("lock {guard} guards w{word}"),
        None => format!("the setup has no w{word}"),
    };
    format!("{it} stands there: {why}, and only a word of lock {lock} may stand there")
}

pub(super) fn length(bytes: usize, field: Option<usize>) -> String {
    match field {
        Some(said) => format!("its length field is {said}, and its bytes are {bytes}"),
        None => format!("it has {bytes} bytes: 8 to 260 may stand there"),
    }
}

pub(super) fn kind(kind: u16) -> String {
    format!("its kind is {kind}: 1 or 4 may stand there")
}

/// A record whose length is not 4 and 4 for each instruction of its kind.
pub(super) fn count(kind: u16, bytes: usize) -> String {
    let (from, to) = match kind {
        1 => (1, SHORT),
        _ => (SHORT + 1, INSTRUCTIONS),
    };
    let body = bytes - 4;
    let many = match body % 4 {
        0 => counted(body / 4, "instruction", "instructions"),
        _ => format!("{body} bytes of instructions, which have 4 each"),
    };
    format!("it has kind {kind} and {many}: of kind {kind} {from} to {to} may stand there")
}

fn counted(many: usize, one: &str, more: &str) -> String {
    let what = if many == 1 { one } else { more };
    format!("{many} {what}")
}
