//! The second program's engine and the archive's, side by side, and a third
//! one beside them where one is given.

use crate::records::Records;
use crate::told::{Archive, Calls, Second, Told};
use chantgarden::lent::NUMBERS;
use second::engine::Engine;
use second::script::{Call, LONGEST_BYTES};
use std::fmt;

/// Numbers lent beyond those of a state; no call touches them.
const BEYOND: usize = 8;
const UNTOUCHED: u32 = 0xA5A5_A5A5;
/// All words and locks are read after so many calls, all sheets after so
/// many.
const WORDS_AFTER: u64 = 8;
const SHEETS_AFTER: u64 = 512;

/// A call on which they differ.
#[derive(Debug)]
pub struct Difference {
    number: u64,
    call: String,
    second: Told,
    archive: Told,
    third: Option<Told>,
}

impl fmt::Display for Difference {
    fn fmt(&self, out: &mut fmt::Formatter<'_>) -> fmt::Result {
        writeln!(out, "call {}: {}", self.number, self.call)?;
        writeln!(out, "second:  {:?}", self.second)?;
        write!(out, "archive: {:?}", self.archive)?;
        match &self.third {
            Some(third) => write!(out, "\nthird:   {third:?}"),
            None => Ok(()),
        }
    }
}

impl Difference {
    /// The same one, found by a reading after this call.
    fn after(self, call: &Call) -> Difference {
        let call = format!("{call}, then {}", self.call);
        Difference { call, ..self }
    }
}

/// The engines, and what was done with them.
pub struct Pair {
    second: Second,
    /// The archive's state, and some numbers beyond it.
    archive: Archive,
    /// What it was before a call that may not change it.
    before: Vec<u32>,
    third: Option<Box<dyn Calls>>,
    pub records: Records,
    pub calls: u64,
    /// Readings between the calls.
    pub readings: u64,
    /// How many calls were refused with each number; at 0 those accepted.
    pub told: [u64; 32],
    /// How many collects told each answer; at 0 those refused.
    pub answers: [u64; 5],
    /// How many accepted begins had each number of instructions.
    pub begun: [u64; Engine::INSTRUCTIONS + 1],
    /// How many collects told each number of steps; at 0 those refused.
    pub steps: [u64; Engine::LONGEST_TRY as usize + 1],
}

impl Pair {
    /// All in the blank state, as a third one has to be.
    pub fn new(third: Option<Box<dyn Calls>>) -> Pair {
        let mut lent = vec![0; NUMBERS];
        lent.resize(NUMBERS + BEYOND, UNTOUCHED);
        Pair {
            second: Second(Engine::blank()),
            before: lent.clone(),
            archive: Archive(lent),
            third,
            records: Records::new(),
            calls: 0,
            readings: 0,
            told: [0; 32],
            answers: [0; 5],
            begun: [0; Engine::INSTRUCTIONS + 1],
            steps: [0; Engine::LONGEST_TRY as usize + 1],
        }
    }

    /// The second program's engine, from whose state random calls are made.
    pub fn second(&self) -> &Engine {
        &self.second.0
    }

    /// One call on all, and its record; tells whether it was accepted. A
    /// step is one step.
    pub fn compare(&mut self, call: &Call) -> Result<bool, Difference> {
        self.calls += 1;
        let number = self.compare_one(call)?;
        self.compare_record(call)?;
        self.told[number as usize % 32] += 1;
        if let (Call::Begin { record, .. }, 0) = (call, number) {
            self.begun[record.len() / 4 - 1] += 1;
        }
        let after = |read: Difference| read.after(call);
        if self.calls.is_multiple_of(WORDS_AFTER) {
            self.compare_words().map_err(after)?;
        }
        if self.calls.is_multiple_of(SHEETS_AFTER) {
            self.compare_sheets().map_err(after)?;
        }
        Ok(number == 0)
    }

    /// A refused call and one that reads leave every number as it was; a
    /// refused setup makes the state the blank one. None touches what lies
    /// beyond the state, which the next such call finds out.
    fn compare_one(&mut self, call: &Call) -> Result<u32, Difference> {
        let fill = self.calls as u8;
        let second = Told::by(&mut self.second, call, fill);
        let number = second.number();
        if let Told::Collected(told) = &second {
            self.answers[told.answer as usize] += 1;
            self.steps[told.steps as usize] += 1;
        }
        let kept = number != 0 || reads(call);
        if kept {
            self.before[..NUMBERS].copy_from_slice(&self.archive.0[..NUMBERS]);
        }
        let archive = Told::by(&mut self.archive, call, fill);
        if matches!(call, Call::Setup(_)) {
            self.before[..NUMBERS].fill(0);
        }
        if kept && self.before != self.archive.0 {
            let mut both = self.before.iter().zip(&self.archive.0);
            let at = both.position(|(before, after)| before != after);
            let at = at.unwrap_or(0);
            let call = format!("{call}: number {at} of the state is changed");
            return self.difference(call, second, archive, None);
        }
        self.equal(call, fill, second, archive)?;
        Ok(number)
    }

    fn compare_record(&mut self, call: &Call) -> Result<(), Difference> {
        match self.records.compare(call, self.calls as u8) {
            Ok(()) => Ok(()),
            Err((call, second, archive)) => self.difference(call, second, archive, None),
        }
    }

    /// All words and locks, and one more of each.
    pub fn compare_words(&mut self) -> Result<(), Difference> {
        let mut word = 0;
        while self.compare_reading(&Call::Word(word))? {
            word += 1;
        }
        let mut lock = 0;
        while self.compare_reading(&Call::Lock(lock))? {
            lock += 1;
        }
        Ok(())
    }

    /// All sheets, and one more, and the record of all values and turns.
    pub fn compare_sheets(&mut self) -> Result<(), Difference> {
        let size = LONGEST_BYTES;
        for sheet in 0..=Engine::SHEETS as u32 {
            self.compare_reading(&Call::Show { sheet, size })?;
        }
        self.compare_reading(&Call::Park { size })?;
        Ok(())
    }

    fn compare_reading(&mut self, call: &Call) -> Result<bool, Difference> {
        self.readings += 1;
        let fill = self.readings as u8;
        let second = Told::by(&mut self.second, call, fill);
        let archive = Told::by(&mut self.archive, call, fill);
        let accepted = second.number() == 0;
        self.equal(call, fill, second, archive)?;
        Ok(accepted)
    }

    /// The two told the same, and so does a third one, on the same call.
    fn equal(
        &mut self,
        call: &Call,
        fill: u8,
        second: Told,
        archive: Told,
    ) -> Result<(), Difference> {
        let third = self.third.as_deref_mut();
        let third = third.map(|third| Told::by(third, call, fill));
        if second == archive && third.as_ref().is_none_or(|third| *third == archive) {
            return Ok(());
        }
        self.difference(call.to_string(), second, archive, third)
    }

    fn difference<T>(
        &self,
        call: String,
        second: Told,
        archive: Told,
        third: Option<Told>,
    ) -> Result<T, Difference> {
        let number = self.calls;
        Err(Difference {
            number,
            call,
            second,
            archive,
            third,
        })
    }

    /// How many calls there were, and how many of them were refused.
    pub fn counts(&self) -> String {
        let (calls, readings, records) = (self.calls, self.readings, self.records.count());
        let kinds = self.told[1..].iter().filter(|&&times| times > 0).count();
        let refused = calls - self.told[0];
        format!("{calls} calls, {refused} of them refused with {kinds} numbers, {records} records of them, and {readings} readings between them")
    }

    /// Makes one step on the archive's engine alone, of the first worker
    /// that can make one, where there is one.
    #[cfg(test)]
    pub fn one_step_apart(&mut self) -> bool {
        (0..Engine::WORKERS as u32).any(|worker| self.archive.step(worker).number == 0)
    }
}

/// Whether a call leaves the state as it is.
fn reads(call: &Call) -> bool {
    matches!(
        call,
        Call::Word(_) | Call::Lock(_) | Call::Show { .. } | Call::Park { .. }
    )
}
