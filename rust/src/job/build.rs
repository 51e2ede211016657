//! A job built by methods, an instruction a call.

use super::draft::{Draft, End, Item};
use super::fault::{self, At, Faults};
use super::{Instruction, Job, REGISTERS, WORDS};

/// A job that is being built: a method an instruction, its operands in the
/// notation's order. [`done`](Builder::done) tells of every fault, by the
/// number of the call, the first of which is 1.
///
/// ```
/// use chantgarden::job::{Faults, Job};
///
/// // Are words 0 and 1 equal?
/// let job = Job::build()
///     .load(0, 0)
///     .load(1, 1)
///     .skip_to("equal", 0, 1)
///     .halt_no()
///     .label("equal")
///     .halt_yes()
///     .done()?;
/// assert_eq!(job.to_string(), "load r0 w0\nload r1 w1\nskip 1 if r0 = r1\nhalt no\nhalt yes");
/// # Ok::<(), Faults>(())
/// ```
#[must_use]
#[derive(Clone, Default, Debug)]
pub struct Builder {
    draft: Draft,
    calls: usize,
}

impl Builder {
    /// `load r0 w2`: register 0 becomes word 2.
    pub fn load(self, register: u8, word: u8) -> Builder {
        let plain = Instruction::Load(register, word);
        self.plain(plain, &[register], Some(word))
    }

    /// `store r0 w2`: word 2 becomes register 0.
    pub fn store(self, register: u8, word: u8) -> Builder {
        let plain = Instruction::Store(register, word);
        self.plain(plain, &[register], Some(word))
    }

    /// `cam w2 r0 r1`: if word 2 equals register 0 it becomes register 1.
    pub fn cam(self, word: u8, old: u8, new: u8) -> Builder {
        let plain = Instruction::Cam(word, old, new);
        self.plain(plain, &[old, new], Some(word))
    }

    /// `set r1 500`: register 1 becomes 500.
    pub fn set(self, register: u8, number: u16) -> Builder {
        self.plain(Instruction::Set(register, number), &[register], None)
    }

    /// `add r0 r1`: register 0 becomes register 0 plus register 1.
    pub fn add(self, register: u8, other: u8) -> Builder {
        let plain = Instruction::Add(register, other);
        self.plain(plain, &[register, other], None)
    }

    /// `sub r0 r1`: register 0 becomes register 0 less register 1.
    pub fn sub(self, register: u8, other: u8) -> Builder {
        let plain = Instruction::Sub(register, other);
        self.plain(plain, &[register, other], None)
    }

    /// `skip 2 if r0 = r1`: if they are equal, pass over the next 2.
    pub fn skip(self, over: u8, one: u8, other: u8) -> Builder {
        let shown = Instruction::Skip(over, one, other).to_string();
        let end = End::Over(u64::from(over));
        let mut built = self.item(Item::Skip(end, one, other), &[one, other], None, shown);
        if over == 0 {
            let at = At::Call(built.calls);
            built.draft.fault(at, fault::stands("0", fault::OVER));
        }
        built
    }

    /// `skip to NAME if r0 = r1`: if they are equal, go on at the label.
    pub fn skip_to(self, name: &str, one: u8, other: u8) -> Builder {
        let shown = format!("skip to {name} if r{one} = r{other}");
        let end = End::To(name.to_string());
        self.item(Item::Skip(end, one, other), &[one, other], None, shown)
    }

    /// `halt yes`: the job's answer is yes.
    pub fn halt_yes(self) -> Builder {
        self.plain(Instruction::Halt(true), &[], None)
    }

    /// `halt no`: the job's answer is no.
    pub fn halt_no(self) -> Builder {
        self.plain(Instruction::Halt(false), &[], None)
    }

    /// A name for the next instruction, for a skip to go to.
    pub fn label(mut self, name: &str) -> Builder {
        self.calls += 1;
        self.draft.label(At::Call(self.calls), name);
        self
    }

    /// The job, or all that is wrong with it.
    pub fn done(self) -> Result<Job, Faults> {
        self.draft.done(At::Call(self.calls.max(1)))
    }

    fn plain(self, plain: Instruction, registers: &[u8], word: Option<u8>) -> Builder {
        self.item(Item::Plain(plain), registers, word, plain.to_string())
    }

    fn item(mut self, item: Item, registers: &[u8], word: Option<u8>, shown: String) -> Builder {
        self.calls += 1;
        let at = At::Call(self.calls);
        for register in registers.iter().filter(|register| **register >= REGISTERS) {
            let stands = format!("r{register}");
            let words = fault::stands(&stands, fault::REGISTER);
            self.draft.fault(at, words);
        }
        if let Some(word) = word.filter(|word| *word >= WORDS) {
            let words = fault::stands(&format!("w{word}"), fault::WORD);
            self.draft.fault(at, words);
        }
        self.draft.add(at, item, shown);
        self
    }
}
