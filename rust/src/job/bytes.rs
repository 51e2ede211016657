//! Job records: an instruction's four bytes there and back, and every fault of
//! a record, in begin's order.

use super::fault::{self, At, Fault, Faults};
use super::{Instruction, Job, INSTRUCTIONS, REGISTERS, SHORT, WORDS};

/// The record of these instructions, whatever they are. Where they are too
/// many or none it is no job record.
pub(super) fn record(program: &[Instruction]) -> Vec<u8> {
    let kind = if program.len() <= SHORT { 1 } else { 4 };
    // 65,535 is the length of no job record.
    let length = u16::try_from(4 + 4 * program.len()).unwrap_or(u16::MAX);
    let mut record = [length, kind].map(u16::to_le_bytes).concat();
    record.extend(program.iter().flat_map(|&instruction| written(instruction)));
    record
}

fn written(instruction: Instruction) -> [u8; 4] {
    match instruction {
        Instruction::Halt(yes) => [0, u8::from(yes), 0, 0],
        Instruction::Set(register, number) => {
            let [low, high] = number.to_le_bytes();
            [1, register, low, high]
        }
        Instruction::Load(register, word) => [2, register, word, 0],
        Instruction::Store(register, word) => [3, register, word, 0],
        Instruction::Cam(word, old, new) => [4, old, new, word],
        Instruction::Add(register, other) => [5, register, other, 0],
        Instruction::Sub(register, other) => [6, register, other, 0],
        Instruction::Skip(over, one, other) => [7, one, other, over],
    }
}

/// The job of a record, or all that is wrong with it.
pub(super) fn job(record: &[u8]) -> Result<Job, Faults> {
    let body = whole(record).map_err(|(number, words)| {
        let at = At::Record;
        Faults::from(Fault::refused(number, at, words))
    })?;
    let count = body.len() / 4;
    let mut program = Vec::new();
    let mut faults = Vec::new();
    for (place, four) in body.chunks_exact(4).enumerate() {
        let four = [four[0], four[1], four[2], four[3]];
        match read(four, count - 1 - place) {
            Ok(instruction) => program.push(instruction),
            Err(flaws) => faults.extend(flaws.told(place, four)),
        }
    }
    let record = record.to_vec();
    match faults.is_empty() {
        true => Ok(Job { program, record }),
        false => Err(Faults(faults)),
    }
}

/// The bytes of the instructions, or the refusal that looks at none of them.
fn whole(record: &[u8]) -> Result<&[u8], (u32, String)> {
    let Some(([low, high, kind @ ..], body)) = record.split_first_chunk::<4>() else {
        return Err((5, fault::length(record.len(), None)));
    };
    let field = usize::from(u16::from_le_bytes([*low, *high]));
    if field != record.len() {
        return Err((5, fault::length(record.len(), Some(field))));
    }
    let kind = u16::from_le_bytes(*kind);
    let counts = match kind {
        1 => 1..=SHORT,
        4 => SHORT + 1..=INSTRUCTIONS,
        _ => return Err((6, fault::kind(kind))),
    };
    match body.len() % 4 == 0 && counts.contains(&(body.len() / 4)) {
        true => Ok(body),
        false => Err((5, fault::count(kind, record.len()))),
    }
}

/// What is wrong with one instruction: what is badly formed, and a word that
/// no unit has.
#[derive(Default)]
struct Flaws {
    form: Vec<String>,
    word: Vec<String>,
}

impl Flaws {
    fn register(&mut self, register: u8) {
        if register >= REGISTERS {
            let stands = format!("r{register}");
            self.form.push(fault::stands(&stands, fault::REGISTER));
        }
    }

    fn word(&mut self, word: u8) {
        if word >= WORDS {
            let stands = format!("w{word}");
            self.word.push(fault::stands(&stands, fault::WORD));
        }
    }

    /// A field that says nothing.
    fn unused(&mut self, field: u8) {
        if field != 0 {
            let words = format!("{field} stands in an unused field, where 0 may stand");
            self.form.push(words);
        }
    }

    /// A skip with so many instructions after it.
    fn over(&mut self, over: u8, after: usize) {
        let skip = format!("skip {over}");
        if over == 0 {
            self.form
                .push(fault::stands(&skip, "`skip 1` or more may stand"));
        } else if usize::from(over) >= after {
            self.form.push(fault::past_the_end(&skip, after));
        }
    }

    fn are_none(&self) -> bool {
        self.form.is_empty() && self.word.is_empty()
    }

    /// As the faults of the instruction at this place, in begin's order.
    fn told(self, place: usize, four: [u8; 4]) -> Vec<Fault> {
        let bytes = four.map(|byte| format!("{byte:02x}")).join(" ");
        let told = |number, words| {
            let words = format!("{words}, in {bytes}");
            Fault::refused(number, At::Instruction(place), words)
        };
        let form = self.form.into_iter().map(|words| told(7, words));
        let word = self.word.into_iter().map(|words| told(8, words));
        form.chain(word).collect()
    }
}

/// The instruction with so many after it.
fn read([op, a, b, c]: [u8; 4], after: usize) -> Result<Instruction, Flaws> {
    let mut flaws = Flaws::default();
    if !matches!(op, 0 | 8..) {
        flaws.register(a);
    }
    if matches!(op, 4..=7) {
        flaws.register(b);
    }
    match op {
        0 => flaws.unused(b),
        2 | 3 => flaws.word(b),
        4 => flaws.word(c),
        7 if after > 0 => flaws.over(c, after),
        _ => (),
    }
    if matches!(op, 0 | 2 | 3 | 5 | 6) {
        flaws.unused(c);
    }
    let instruction = match (op, a) {
        (0, 0) => Instruction::Halt(false),
        (0, 1) => Instruction::Halt(true),
        (0, _) => return Err(no_answer(flaws, a)),
        (1, _) => Instruction::Set(a, u16::from_le_bytes([b, c])),
        (2, _) => Instruction::Load(a, b),
        (3, _) => Instruction::Store(a, b),
        (4, _) => Instruction::Cam(c, a, b),
        (5, _) => Instruction::Add(a, b),
        (6, _) => Instruction::Sub(a, b),
        (7, _) => Instruction::Skip(c, a, b),
        (8.., _) => return Err(no_meaning(op)),
    };
    if after == 0 && op != 0 {
        let last = instruction.to_string();
        flaws.form.push(fault::no_halt(&last));
    }
    match flaws.are_none() {
        true => Ok(instruction),
        false => Err(flaws),
    }
}

fn no_answer(mut flaws: Flaws, answer: u8) -> Flaws {
    let words = format!("{answer} stands where a halt's answer may stand: 0 (no) or 1 (yes)");
    flaws.form.push(words);
    flaws
}

fn no_meaning(op: u8) -> Flaws {
    let words = format!("op {op} stands where an instruction may stand: 0 to 7");
    let (form, word) = (vec![words], Vec::new());
    Flaws { form, word }
}
