//! The notation, read line by line: labels, an instruction, a comment.

use super::draft::{is_name, Draft, End, Item};
use super::fault::{self, At, Faults};
use super::{Instruction, Job, REGISTERS, WORDS};

pub(super) fn job(text: &str) -> Result<Job, Faults> {
    let mut draft = Draft::default();
    let mut last = At::Line(1);
    for (index, line) in text.lines().enumerate() {
        last = At::Line(index + 1);
        read_line(&mut draft, last, line);
    }
    draft.done(last)
}

fn read_line(draft: &mut Draft, at: At, line: &str) {
    let mut rest = line.split('#').next().unwrap_or_default();
    while let Some((name, after)) = rest.split_once(':') {
        draft.label(at, name.trim());
        rest = after;
    }
    let words: Vec<&str> = rest.split_whitespace().flat_map(parts).collect();
    if words.is_empty() {
        return;
    }
    let shown = words.join(" ");
    let (next, lost) = (0, false);
    let mut line = Words {
        draft,
        at,
        words: &words,
        next,
        lost,
    };
    let item = line.instruction().unwrap_or(Item::Faulty);
    draft.add(at, item, shown);
}

/// A word, apart from an `=` in it.
fn parts(word: &str) -> impl Iterator<Item = &str> {
    let (before, rest) = word.split_at(word.find('=').unwrap_or(word.len()));
    let (equals, after) = rest.split_at(rest.len().min(1));
    let parts = [before, equals, after].into_iter();
    parts.filter(|part| !part.is_empty())
}

/// The words of a line, from the next one on.
struct Words<'a> {
    draft: &'a mut Draft,
    at: At,
    words: &'a [&'a str],
    next: usize,
    /// It ends too early, or has not the form of its instruction: no more is
    /// told of it.
    lost: bool,
}

impl Words<'_> {
    fn instruction(&mut self) -> Option<Item> {
        let name = self.take(fault::INSTRUCTION, |word| {
            NAMES.contains(&word).then(|| word.to_string())
        })?;
        let item = match name.as_str() {
            "load" => self.with_word(Instruction::Load),
            "store" => self.with_word(Instruction::Store),
            "add" => self.with_registers(Instruction::Add),
            "sub" => self.with_registers(Instruction::Sub),
            "set" => self.set(),
            "cam" => self.cam(),
            "skip" => self.skip(),
            _ => self.halt(),
        };
        self.end();
        item
    }

    fn with_word(&mut self, made: fn(u8, u8) -> Instruction) -> Option<Item> {
        let (register, word) = (self.register(), self.word());
        Some(Item::Plain(made(register?, word?)))
    }

    fn with_registers(&mut self, made: fn(u8, u8) -> Instruction) -> Option<Item> {
        let (register, other) = (self.register(), self.register());
        Some(Item::Plain(made(register?, other?)))
    }

    fn set(&mut self) -> Option<Item> {
        let register = self.register();
        let number = self.take(fault::NUMBER, |word| u16::try_from(number(word)?).ok());
        Some(Item::Plain(Instruction::Set(register?, number?)))
    }

    fn cam(&mut self) -> Option<Item> {
        let (word, old, new) = (self.word(), self.register(), self.register());
        Some(Item::Plain(Instruction::Cam(word?, old?, new?)))
    }

    fn halt(&mut self) -> Option<Item> {
        let yes = self.take(fault::ANSWER, |word| match word {
            "yes" => Some(true),
            "no" => Some(false),
            _ => None,
        });
        Some(Item::Plain(Instruction::Halt(yes?)))
    }

    fn skip(&mut self) -> Option<Item> {
        let end = match self.words.get(self.next) {
            Some(&"to") => {
                self.next += 1;
                let name = |word: &str| is_name(word).then(|| word.to_string());
                self.take(fault::LABEL, name).map(End::To)
            }
            _ => self.take(fault::OVER, |word| {
                number(word).filter(|over| *over > 0).map(End::Over)
            }),
        };
        let when = self.exactly("if", fault::IF);
        let one = self.register();
        let equals = self.exactly("=", fault::EQUALS);
        let other = self.register();
        when.and(equals)?;
        Some(Item::Skip(end?, one?, other?))
    }

    fn register(&mut self) -> Option<u8> {
        self.take(fault::REGISTER, |word| numbered(word, 'r', REGISTERS))
    }

    fn word(&mut self) -> Option<u8> {
        self.take(fault::WORD, |word| numbered(word, 'w', WORDS))
    }

    fn exactly(&mut self, wanted: &str, may: &str) -> Option<()> {
        let there = self.take(may, |word| (word == wanted).then_some(()));
        self.lost |= there.is_none();
        there
    }

    /// The next word, read so; where it can't be, what may stand there is told.
    fn take<T>(&mut self, may: &str, read: impl Fn(&str) -> Option<T>) -> Option<T> {
        if self.lost {
            return None;
        }
        let Some(word) = self.words.get(self.next) else {
            let line = self.words.join(" ");
            self.draft.fault(self.at, fault::ends(&line, may));
            self.lost = true;
            return None;
        };
        self.next += 1;
        let got = read(word);
        if got.is_none() {
            self.draft.fault(self.at, fault::stands(word, may));
        }
        got
    }

    /// Nothing stands after the instruction.
    fn end(&mut self) {
        let (before, after) = self.words.split_at(self.next);
        if let (Some(word), false) = (after.first(), self.lost) {
            let words = fault::more(word, &before.join(" "));
            self.draft.fault(self.at, words);
        }
    }
}

const NAMES: [&str; 8] = ["load", "store", "cam", "set", "add", "sub", "skip", "halt"];

/// A decimal number without a sign or leading zeros; the largest there is
/// where it is larger.
fn number(word: &str) -> Option<u64> {
    let digits = !word.is_empty() && word.bytes().all(|byte| byte.is_ascii_digit());
    let plain = digits && (word == "0" || !word.starts_with('0'));
    plain.then(|| word.parse().unwrap_or(u64::MAX))
}

/// The number after this letter, below a limit.
fn numbered(word: &str, letter: char, limit: u8) -> Option<u8> {
    let number = number(word.strip_prefix(letter)?)?;
    u8::try_from(number).ok().filter(|number| *number < limit)
}
