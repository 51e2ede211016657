//! A job on its way from a text or from a builder's calls: its instructions
//! with where each stands, its labels, and the faults found so far.

use super::fault::{self, At, Fault, Faults};
use super::{Instruction, Job, INSTRUCTIONS};

/// An instruction, or a skip whose end is not worked out yet.
#[derive(Clone, PartialEq, Eq, Debug)]
pub(super) enum Item {
    Plain(Instruction),
    Skip(End, u8, u8),
    /// A fault of it is told already; it still counts as an instruction.
    Faulty,
}

/// How far a skip goes.
#[derive(Clone, PartialEq, Eq, Debug)]
pub(super) enum End {
    Over(u64),
    To(String),
}

#[derive(Clone, Debug)]
struct Line {
    at: At,
    item: Item,
    /// As it stands there.
    shown: String,
}

#[derive(Clone, Debug)]
struct Label {
    name: String,
    at: At,
    /// The place of the instruction after it, from 0.
    place: usize,
}

#[derive(Clone, Default, Debug)]
pub(super) struct Draft {
    lines: Vec<Line>,
    labels: Vec<Label>,
    faults: Vec<Fault>,
}

impl Draft {
    pub(super) fn fault(&mut self, at: At, words: String) {
        self.faults.push(Fault::new(at, words));
    }

    pub(super) fn add(&mut self, at: At, item: Item, shown: String) {
        self.lines.push(Line { at, item, shown });
    }

    pub(super) fn label(&mut self, at: At, name: &str) {
        if !is_name(name) {
            return self.fault(at, fault::stands(name, fault::NAME));
        }
        let there = self.labels.iter().find(|label| label.name == name);
        if let Some(first) = there.map(|label| label.at) {
            return self.fault(at, fault::again(name, first));
        }
        let (name, place) = (name.to_string(), self.lines.len());
        self.labels.push(Label { name, at, place });
    }

    /// The job, or all that is wrong; an empty one is told of at this place.
    pub(super) fn done(mut self, last: At) -> Result<Job, Faults> {
        self.count(last);
        let mut program = Vec::new();
        for place in 0..self.lines.len() {
            match self.resolved(place) {
                Ok(instruction) => program.extend(instruction),
                Err(words) => self.fault(self.lines[place].at, words),
            }
        }
        if !self.faults.is_empty() {
            self.faults.sort_by_key(|fault| fault.at);
            return Err(Faults(self.faults));
        }
        Job::new(&program)
    }

    /// There are neither too many instructions nor none, and the last is a
    /// halt.
    fn count(&mut self, last: At) {
        if let Some(Line { at, shown, .. }) = self.lines.get(INSTRUCTIONS) {
            let fault = Fault::new(*at, fault::too_many(shown));
            self.faults.push(fault);
        }
        let fault = match self.lines.last() {
            None => Fault::new(last, fault::none_at_all()),
            Some(line) => match line.item {
                Item::Plain(Instruction::Halt(_)) | Item::Faulty => return,
                _ => Fault::new(line.at, fault::no_halt(&line.shown)),
            },
        };
        self.faults.push(fault);
    }

    /// The instruction at this place; none where its fault is told already.
    fn resolved(&self, place: usize) -> Result<Option<Instruction>, String> {
        // Of a skip that is the last the missing halt is told.
        let after = self.lines.len() - 1 - place;
        match &self.lines[place].item {
            Item::Plain(instruction) => Ok(Some(*instruction)),
            Item::Faulty => Ok(None),
            Item::Skip(..) if after == 0 => Ok(None),
            Item::Skip(End::Over(over), one, other) => match u8::try_from(*over) {
                Ok(over) if usize::from(over) < after => {
                    Ok(Some(Instruction::Skip(over, *one, *other)))
                }
                _ => Err(fault::past_the_end(&format!("skip {over}"), after)),
            },
            Item::Skip(End::To(name), one, other) => {
                let over = self.passed_over(place, name)?;
                Ok(Some(Instruction::Skip(over, *one, *other)))
            }
        }
    }

    /// How many instructions stand between the skip at this place and a label.
    fn passed_over(&self, skip: usize, name: &str) -> Result<u8, String> {
        let ends = |label: &&Label| label.place > skip + 1 && label.place < self.lines.len();
        let why = match self.labels.iter().find(|label| label.name == name) {
            None => "which is no label of this text",
            // More than 64 instructions are told of already.
            Some(label) if ends(&label) => {
                return Ok(u8::try_from(label.place - skip - 1).unwrap_or(u8::MAX))
            }
            Some(label) if label.place == skip + 1 => {
                "a label with no instruction between the skip and it"
            }
            Some(label) if label.place <= skip => "a label above the skip",
            Some(_) => "a label with no instruction after it",
        };
        let may = self.labels.iter().filter(ends);
        let may: Vec<&str> = may.map(|label| label.name.as_str()).collect();
        Err(fault::no_end(name, why, &may))
    }
}

/// A letter, then letters, digits, `-` or `_`.
pub(super) fn is_name(name: &str) -> bool {
    let inner = |byte: u8| byte.is_ascii_alphanumeric() || matches!(byte, b'-' | b'_');
    name.starts_with(|first: char| first.is_ascii_alphabetic()) && name.bytes().all(inner)
}
