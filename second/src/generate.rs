//! Random histories: many workers contending for few locks, drops anywhere,
//! helpers in the middle, jobs of every length, the longest runs among them,
//! every refusal that calls can reach, damaged records and numbers far out of
//! range.

use crate::engine::{Engine, Instruction, LockWord, Standing};
use crate::job;
use crate::script::{self, Call, LONGEST_BYTES, LONGEST_SCRIPT};
use std::collections::VecDeque;

pub mod books;
pub mod files;
pub mod plain;

/// A small generator of numbers (splitmix), the same from the same seed.
#[derive(Clone, Debug)]
pub struct Random(u64);

impl Random {
    pub fn new(seed: u64) -> Random {
        Random(seed)
    }

    fn next(&mut self) -> u64 {
        self.0 = self.0.wrapping_add(0x9E37_79B9_7F4A_7C15);
        let mut mixed = self.0;
        mixed = (mixed ^ (mixed >> 30)).wrapping_mul(0xBF58_476D_1CE4_E5B9);
        mixed = (mixed ^ (mixed >> 27)).wrapping_mul(0x94D0_49BB_1331_11EB);
        mixed ^ (mixed >> 31)
    }

    /// A number below this one, which is at least 1.
    pub fn below(&mut self, limit: u32) -> u32 {
        (((self.next() >> 32) * u64::from(limit)) >> 32) as u32
    }

    /// True once in so many.
    pub fn one_in(&mut self, times: u32) -> bool {
        self.below(times) == 0
    }

    pub fn byte(&mut self) -> u8 {
        self.below(256) as u8
    }

    pub fn pick<T: Copy>(&mut self, choices: &[T]) -> T {
        choices[self.below(choices.len() as u32) as usize]
    }
}

/// What kind of history is made.
#[derive(Clone, Copy, PartialEq, Eq, Debug)]
pub enum Kind {
    /// Everything: for holding two programs against each other.
    Wide,
    /// Tiny jobs on a word or two under one lock, and no refusals on
    /// purpose: where a shortcut shows soonest.
    Narrow,
}

/// What one history is like; drawn once at its start.
#[derive(Clone, Debug)]
struct Style {
    workers: u32,
    locks: u32,
    words: u32,
    longest_job: u32,
    /// Most jobs take the longest runs, and go far in them.
    long_runs: bool,
    /// Turns start near the last one, and begun tries overtake others.
    late_turns: bool,
    /// One call in so many is an odd one; 0 for none.
    odd: u32,
    /// One call in so many to a worker under way is a drop.
    drops: u32,
    /// One call in so many only reads.
    readings: u32,
}

impl Style {
    fn draw(random: &mut Random, kind: Kind) -> Style {
        match kind {
            Kind::Narrow => Style::narrow(random),
            Kind::Wide if random.one_in(6) => Style::long(random),
            Kind::Wide => Style::wide(random),
        }
    }

    fn narrow(random: &mut Random) -> Style {
        Style {
            workers: 2 + random.below(3),
            locks: 1,
            words: 1 + random.below(2),
            longest_job: 2 + random.below(4),
            long_runs: false,
            late_turns: random.one_in(6),
            odd: 0,
            drops: random.pick(&[20, 60, 1000]),
            readings: 1000,
        }
    }

    fn wide(random: &mut Random) -> Style {
        let locks = random.pick(&[1, 1, 1, 2, 2, 3, 5, 16]);
        let few = 1 + random.below(4);
        let any = 1 + random.below(Engine::WORDS as u32);
        Style {
            workers: random.pick(&[2, 3, 3, 4, 5, 8]),
            locks,
            words: random.pick(&[locks, few, 2 * locks, any]),
            longest_job: random.pick(&[4, 6, 10, MOST]),
            long_runs: false,
            late_turns: random.one_in(6),
            odd: random.pick(&[6, 12, 30]),
            drops: random.pick(&[8, 25, 60]),
            readings: random.pick(&[3, 4, 6]),
        }
    }

    /// Few workers at one lock or two, so that the long runs are helped.
    fn long(random: &mut Random) -> Style {
        Style {
            workers: 2 + random.below(3),
            locks: random.pick(&[1, 1, 1, 2]),
            words: 2 + random.below(4),
            longest_job: MOST,
            long_runs: true,
            ..Style::wide(random)
        }
    }
}

/// The most instructions of a job.
const MOST: u32 = Engine::INSTRUCTIONS as u32;

/// Small values, so that equal ones meet.
const VALUES: [u8; 5] = [0, 1, 5, 6, 7];

/// A job that begin takes under any lock: one halt, with yes.
pub(crate) const SHORTEST_JOB: [u8; 8] = [8, 0, 1, 0, 0, 1, 0, 0];

/// Numbers just out of range, and far out of it.
const FAR: [u32; 20] = [
    8,
    9,
    15,
    16,
    17,
    31,
    32,
    33,
    63,
    64,
    65,
    255,
    256,
    65_535,
    65_536,
    1 << 24,
    1 << 31,
    u32::MAX - 7,
    u32::MAX - 255,
    u32::MAX,
];

/// Makes the calls of one history, one after the other, each from the state
/// that the calls before it gave.
pub struct Generator {
    random: Random,
    style: Style,
    /// Calls already chosen.
    waiting: VecDeque<Call>,
}

impl Generator {
    pub fn new(seed: u64, kind: Kind) -> Generator {
        let mut random = Random::new(seed);
        let style = Style::draw(&mut random, kind);
        let waiting = VecDeque::new();
        let mut generator = Generator {
            random,
            style,
            waiting,
        };
        if kind == Kind::Wide && generator.random.one_in(10) {
            generator.blank_calls();
        }
        let setup = generator.setup_record();
        generator.waiting.push_back(Call::Setup(setup));
        generator
    }

    /// The next call.
    pub fn next(&mut self, engine: &Engine) -> Call {
        if let Some(call) = self.waiting.pop_front() {
            return call;
        }
        if self.style.odd > 0 && self.random.one_in(self.style.odd) {
            return self.odd_call(engine);
        }
        if self.random.one_in(self.style.readings) {
            return self.reading(engine);
        }
        let worker = self.random.below(self.style.workers);
        match engine.standing(worker) {
            Standing::Idle => self.good_begin(engine, worker),
            Standing::UnderWay if self.random.one_in(self.style.drops) => Call::Drop(worker),
            Standing::UnderWay => {
                let times = self.times();
                Call::Step { worker, times }
            }
            Standing::Finished if self.random.one_in(12) => Call::Drop(worker),
            Standing::Finished => Call::Collect(worker),
        }
    }

    /// How many steps in one call: mostly one, sometimes a whole try. Long
    /// runs often get as far as some place in their middle.
    fn times(&mut self) -> u32 {
        let (help, most) = (Engine::LONGEST_HELP, Engine::LONGEST_TRY);
        match self.random.below(16) {
            0..=5 if self.style.long_runs => self.random.below(most),
            0..=7 => 1,
            8..=10 => 1 + self.random.below(5),
            11..=12 => self.random.below(13),
            13 => self.random.below(40),
            14 => most,
            _ => self.random.pick(&[0, 14, help, most + 1, 1000, u32::MAX]),
        }
    }

    fn good_begin(&mut self, engine: &Engine, worker: u32) -> Call {
        let lock = self.lock();
        let worn = engine.read_lock(lock) == Ok(LockWord::WORN);
        if worn && self.random.one_in(6) {
            // Little more can happen here: start afresh.
            return Call::Setup(self.setup_record());
        }
        if self.style.late_turns && !worn && self.random.one_in(4) {
            self.overtake(engine, worker, lock);
        } else if self.style.long_runs && self.random.one_in(4) {
            self.lose_grab(engine, worker, lock);
        }
        self.begin(engine, worker, lock)
    }

    fn begin(&mut self, engine: &Engine, worker: u32, lock: u32) -> Call {
        let record = self.job_record(engine, lock);
        Call::Begin {
            worker,
            lock,
            record,
        }
    }

    /// After this worker's begin the other idle ones begin too, and it comes
    /// to its end before they look: they often find the lock worn then.
    fn overtake(&mut self, engine: &Engine, worker: u32, lock: u32) {
        for other in 0..self.style.workers {
            if other != worker && engine.standing(other) == Standing::Idle {
                let begin = self.begin(engine, other, lock);
                self.waiting.push_back(begin);
            }
        }
        let times = Engine::LONGEST_TRY;
        self.waiting.push_back(Call::Step { worker, times });
    }

    /// After this worker's begin another idle one begins too and looks; it
    /// loses its grab, since this one goes on to some place in its run, and
    /// helps from step 3.
    fn lose_grab(&mut self, engine: &Engine, worker: u32, lock: u32) {
        let mut others = (0..self.style.workers).filter(|&other| other != worker);
        let idle = |other: &u32| engine.standing(*other) == Standing::Idle;
        let Some(other) = others.find(idle) else {
            return;
        };
        let begin = self.begin(engine, other, lock);
        let far = 2 + self.random.below(Engine::LONGEST_RUN);
        let steps = [(other, 1), (worker, far), (other, Engine::LONGEST_TRY)];
        let steps = steps.map(|(worker, times)| Call::Step { worker, times });
        self.waiting.push_back(begin);
        self.waiting.extend(steps);
    }

    /// A lock, the first one more often.
    fn lock(&mut self) -> u32 {
        if self.random.one_in(3) {
            return 0;
        }
        self.random.below(self.style.locks)
    }

    /// A reading, or a writing into a lent buffer.
    fn reading(&mut self, engine: &Engine) -> Call {
        match self.random.below(10) {
            0..=3 => Call::Word(self.random.below(self.style.words)),
            4..=6 => Call::Lock(self.lock()),
            7 | 8 => {
                let sheet = self.random.below(self.style.workers + 1);
                let mut buffer = [0; LONGEST_BYTES];
                let length = engine.show(sheet, &mut buffer).unwrap_or(24);
                let size = self.size(length);
                Call::Show { sheet, size }
            }
            _ => {
                let length = 6 + 5 * self.style.words + 4 * self.style.locks;
                let size = self.size(length as usize);
                Call::Park { size }
            }
        }
    }

    /// A buffer's size: about the record's length, or any.
    fn size(&mut self, length: usize) -> usize {
        let any = self.random.below(LONGEST_BYTES as u32 + 1) as usize;
        let choices = [length, length, length + 1, length - 1, length + 7, any, 0];
        self.random.pick(&choices).min(LONGEST_BYTES)
    }

    /// A call that is often refused.
    fn odd_call(&mut self, engine: &Engine) -> Call {
        let worker = self.random.below(8);
        let far = self.far();
        let times = self.times();
        match self.random.below(20) {
            0..=5 => self.odd_begin(engine),
            6 => Call::Step { worker, times },
            7 => Call::Step { worker: far, times },
            8 => Call::Collect(worker),
            9 => Call::Collect(far),
            10 => Call::Drop(far),
            11 => Call::Word(far),
            12 => Call::Word(self.style.words),
            13 => Call::Lock(far),
            14 => Call::Lock(self.style.locks),
            15 => {
                let size = self.size(24);
                let sheet = far;
                Call::Show { sheet, size }
            }
            16 => {
                let sheet = self.random.below(34);
                let size = self.size(24);
                Call::Show { sheet, size }
            }
            17 => {
                let size = self.random.below(40) as usize;
                Call::Park { size }
            }
            18 => Call::Drop(worker),
            _ if self.random.one_in(3) => self.odd_setup(),
            _ => self.odd_begin(engine),
        }
    }

    fn far(&mut self) -> u32 {
        if self.random.one_in(5) {
            return self.random.next() as u32;
        }
        self.random.pick(&FAR)
    }

    /// A begin that is wrong somewhere, or in more than one way.
    fn odd_begin(&mut self, engine: &Engine) -> Call {
        let worker = match self.random.below(8) {
            0 => self.far(),
            1 => self.random.below(8),
            _ => self.idle_worker(engine),
        };
        let mut lock = self.lock();
        let mut record = self.job_record(engine, lock);
        match self.random.below(10) {
            0 => lock = self.far(),
            1 => lock = self.lock(),
            _ => self.damage_job(&mut record),
        }
        Call::Begin {
            worker,
            lock,
            record,
        }
    }

    /// An idle worker, if there is one: of any of the eight.
    fn idle_worker(&mut self, engine: &Engine) -> u32 {
        let first = self.random.below(8);
        (first..first + 8)
            .map(|worker| worker % 8)
            .find(|&worker| engine.standing(worker) == Standing::Idle)
            .unwrap_or(first)
    }

    /// A setup in the middle: a damaged one with some calls on the blank
    /// state after it, or just a fresh start.
    fn odd_setup(&mut self) -> Call {
        let mut record = self.setup_record();
        if self.random.one_in(4) {
            return Call::Setup(record);
        }
        self.damage_setup(&mut record);
        self.blank_calls();
        let good = self.setup_record();
        self.waiting.push_back(Call::Setup(good));
        Call::Setup(record)
    }

    /// Some calls that are all refused on the blank state.
    fn blank_calls(&mut self) {
        for _ in 0..3 + self.random.below(6) {
            let number = match self.random.below(3) {
                0 => self.far(),
                _ => self.random.below(3),
            };
            let worker = number;
            let sheet = number;
            let size = self.size(24);
            let call = match self.random.below(8) {
                0 => {
                    let lock = self.random.below(2);
                    let record = SHORTEST_JOB.to_vec();
                    Call::Begin {
                        worker,
                        lock,
                        record,
                    }
                }
                1 => Call::Step { worker, times: 3 },
                2 => Call::Collect(worker),
                3 => Call::Drop(worker),
                4 => Call::Word(number),
                5 => Call::Lock(number),
                6 => Call::Show { sheet, size },
                _ => Call::Park { size },
            };
            self.waiting.push_back(call);
        }
    }
}

/// Records, good and damaged.
impl Generator {
    fn setup_record(&mut self) -> Vec<u8> {
        let (words, locks) = (self.style.words, self.style.locks);
        let length = 6 + 5 * words + 4 * locks;
        let mut record = vec![length as u8, (length >> 8) as u8, 2, 0];
        record.extend([locks as u8, words as u8]);
        for _ in 0..words {
            record.push(self.random.below(locks) as u8);
        }
        for _ in 0..words {
            record.extend(self.value().to_le_bytes());
        }
        for _ in 0..locks {
            let turn = match self.random.below(4) {
                0 if self.style.late_turns => Engine::LAST_TURN - self.random.below(12),
                _ if self.style.late_turns => Engine::LAST_TURN - self.random.pick(&[0, 1, 1, 2]),
                0 => self.random.below(Engine::LAST_TURN),
                _ => 0,
            };
            record.extend(turn.to_le_bytes());
        }
        record
    }

    /// A word's value.
    fn value(&mut self) -> u32 {
        match self.random.below(8) {
            0 => self.random.next() as u32,
            1 => u32::MAX,
            _ => u32::from(self.random.pick(&VALUES)),
        }
    }

    /// A job that begin takes under this lock.
    fn job_record(&mut self, engine: &Engine, lock: u32) -> Vec<u8> {
        let guarded: Vec<u8> = (0..Engine::WORDS as u32)
            .filter(|&word| {
                engine
                    .read_word(word)
                    .is_ok_and(|read| read.guard == lock as usize)
            })
            .map(|word| word as u8)
            .collect();
        self.job_on(&guarded)
    }

    /// A job that names no words but these.
    fn job_on(&mut self, guarded: &[u8]) -> Vec<u8> {
        let long = self.style.long_runs && !guarded.is_empty() && !self.random.one_in(4);
        let mut program = match long {
            true => self.long_run(guarded),
            false => self.any_run(guarded),
        };
        program.push([0, self.random.below(2) as u8, 0, 0]);
        job::record(&program.concat()).expect("it is no longer than a job")
    }

    /// Any well formed instructions up to the last halt. Where jobs reach the
    /// most instructions, some stand around those of another kind of record.
    fn any_run(&mut self, guarded: &[u8]) -> Vec<Instruction> {
        let longest = self.style.longest_job;
        let length = match self.random.below(8) {
            0 => longest,
            1 if longest == MOST => self.random.pick(&[31, 32, 33, 63]),
            _ => 1 + self.random.below(longest),
        };
        let places = 0..length - 1;
        let instructions = places.map(|place| self.instruction(place, length, guarded));
        instructions.collect()
    }

    /// As many stores, and cams that match, as stand before the last halt: of
    /// three steps each. All registers are 0 then; at times some are set
    /// first, which makes the run a little shorter and the values differ.
    fn long_run(&mut self, guarded: &[u8]) -> Vec<Instruction> {
        let sets = self.random.pick(&[0, 0, 0, 1, 3]);
        let values = (0..sets).map(|register| [1, register, self.random.pick(&VALUES), 0]);
        let mut program: Vec<Instruction> = values.collect();
        // A word, and the register that it equals by now.
        let mut known = None;
        while program.len() < Engine::INSTRUCTIONS - 1 {
            let register = self.random.below(4) as u8;
            let any = self.random.pick(guarded);
            let (instruction, word) = match known {
                Some((word, equal)) if self.random.one_in(2) => ([4, equal, register, word], word),
                _ => ([3, register, any, 0], any),
            };
            program.push(instruction);
            known = Some((word, register));
        }
        program
    }

    /// A well formed instruction for this place of a job of this length.
    fn instruction(&mut self, place: u32, length: u32, guarded: &[u8]) -> Instruction {
        let a = self.random.below(4) as u8;
        let b = self.random.below(4) as u8;
        let ops: &[u8] = if guarded.is_empty() {
            &[1, 5, 6, 7]
        } else {
            &[1, 1, 2, 2, 3, 3, 3, 4, 4, 5, 6, 7]
        };
        let word = |random: &mut Random| random.pick(guarded);
        match self.random.pick(ops) {
            1 if self.random.one_in(12) => [1, a, self.random.byte(), self.random.byte()],
            1 => [1, a, self.random.pick(&VALUES), 0],
            2 => [2, a, word(&mut self.random), 0],
            3 => [3, a, word(&mut self.random), 0],
            4 => [4, a, b, word(&mut self.random)],
            5 => [5, a, b, 0],
            6 => [6, a, b, 0],
            _ if self.random.one_in(10) => [0, self.random.below(2) as u8, 0, 0],
            _ if place + 2 < length => {
                let most = length - 2 - place;
                let few = most.min(3);
                let over = self.random.pick(&[few, few, most]);
                [7, a, b, 1 + self.random.below(over) as u8]
            }
            _ => [1, a, 0, 1],
        }
    }

    /// Makes a job record wrong, or perhaps only another one.
    fn damage_job(&mut self, record: &mut Vec<u8>) {
        match self.random.below(15) {
            0..=2 => self.damage_record(record),
            3 | 4 => self.edge_job(record),
            5 => {
                let length = record.len() as u32;
                for _ in 0..2 + self.random.below(4) {
                    let byte = 4 + self.random.below(length - 4) as usize;
                    record[byte] = self.random.pick(&[0, 1, 2, 3, 4, 7, 8, 200]);
                }
            }
            6 => {
                let last = record.len() - 4;
                record[last] = self.random.pick(&[1, 2, 3, 4, 5, 6, 7, 9]);
            }
            _ => self.damage_instruction(record),
        }
    }

    /// Makes one instruction wrong, or perhaps only another one.
    fn damage_instruction(&mut self, record: &mut [u8]) {
        let places = record.len() as u32 / 4 - 1;
        let place = self.random.below(places);
        let at = 4 + 4 * place as usize;
        let instruction = &mut record[at..at + 4];
        match self.random.below(8) {
            0 => instruction[0] = self.random.byte(),
            1 => instruction[0] = self.random.pick(&[0, 1, 2, 3, 4, 5, 6, 7, 8]),
            2 => instruction[1] = self.random.pick(&[2, 3, 4, 255]),
            3 => instruction[2] = self.random.pick(&[1, 4, 64, 255]),
            4 => instruction[3] = self.random.pick(&[1, 2, 32, 64, 255]),
            5 => {
                // Also over all that is left, and over all of it but the halt.
                let left = (places - 1 - place) as u8;
                let choices = [0, 1, left, left.max(1) - 1, 31, 63, 255];
                let over = self.random.pick(&choices);
                instruction.copy_from_slice(&[7, 0, 0, over]);
            }
            6 => {
                let word = self.random.below(70) as u8;
                let op = self.random.pick(&[2, 3]);
                instruction.copy_from_slice(&[op, 0, word, 0]);
            }
            _ => {
                let word = self.random.byte();
                instruction.copy_from_slice(&[4, 0, 1, word]);
            }
        }
    }

    /// Gives a job record another count, mostly one at the edges of its kind
    /// or of the other one, and perhaps another kind. What is added halts.
    fn edge_job(&mut self, record: &mut Vec<u8>) {
        let count = self.random.pick(&[0, 1, 32, 32, 33, 33, 64, 65, 65, 127]);
        record.resize(4 + 4 * count, 0);
        set_length(record);
        record[2] = self.random.pick(&[1, 1, 1, 4, 4, 4, 0, 2, 3, 5]);
    }

    /// Makes a setup record wrong, or perhaps only another one.
    fn damage_setup(&mut self, record: &mut Vec<u8>) {
        let (words, locks) = (self.style.words as usize, self.style.locks as usize);
        let guard = 6 + self.random.below(words as u32) as usize;
        let turn = 6 + 5 * words + 4 * self.random.below(locks as u32) as usize;
        match self.random.below(9) {
            0 | 1 => self.damage_record(record),
            2 => record[4] = self.random.pick(&[0, 1, 16, 17, 255]),
            3 => record[5] = self.random.pick(&[0, 1, 64, 65, 255]),
            4 => record[guard] = self.random.pick(&[locks as u8, 16, 255]),
            5 => {
                let far = Engine::LAST_TURN + self.random.below(2);
                record[turn..turn + 4].copy_from_slice(&far.to_le_bytes());
            }
            6 => record[turn + 3] = self.random.pick(&[4, 5, 128, 255]),
            7 => {
                record[guard] = 16;
                record[turn + 3] = 5;
            }
            _ => {
                let length = 4 + self.random.below(8) as usize;
                record.truncate(length);
                set_length(record);
            }
        }
    }

    /// Makes a record's length or kind wrong, or cuts it, or lengthens it.
    fn damage_record(&mut self, record: &mut Vec<u8>) {
        match self.random.below(9) {
            0 => record[0] ^= 1 << self.random.below(8),
            1 => record[1] ^= 1 << self.random.below(8),
            2 => record[2] = self.random.pick(&[0, 1, 2, 3, 4, 5, 255]),
            3 => record[3] = self.random.pick(&[1, 255]),
            4 => {
                let length = self.random.below(6) as usize;
                record.truncate(length);
            }
            5 => {
                let length = self.random.below(record.len() as u32) as usize;
                record.truncate(length);
                set_length(record);
            }
            6 => record.clear(),
            7 => {
                record.push(0);
                set_length(record);
            }
            _ => {
                record.push(0);
            }
        }
    }
}

/// Makes the length field that of the record, where the record has one.
fn set_length(record: &mut [u8]) {
    let length = record.len();
    if length >= 2 {
        record[0] = length as u8;
        record[1] = (length >> 8) as u8;
    }
}

/// A history's calls end when its script has become longer than this, so
/// that there is room for one more line of the longest and one after it. It
/// hardly ever comes to that: a script has some 13,000 bytes.
const LONG_ENOUGH: usize = 62_000;

/// One script of 200 to 400 calls, the same from the same seed. It writes
/// hexadecimal in either case and now and then a remark, an empty line or a
/// number with zeros before it. Every line is of the language's form.
pub fn history(seed: u64) -> Vec<u8> {
    let mut generator = Generator::new(seed, Kind::Wide);
    let mut random = Random::new(!seed);
    let mut engine = Engine::blank();
    let mut script = Vec::new();
    for _ in 0..200 + random.below(201) {
        if script.len() > LONG_ENOUGH {
            break;
        }
        let call = generator.next(&engine);
        script::perform(&mut engine, &call);
        match random.below(60) {
            0 => script.extend(b"# a remark\n"),
            1 => script.push(b'\n'),
            _ => {}
        }
        let mut line = call.to_string().into_bytes();
        if random.one_in(4) {
            upper_case_hex(&mut line);
        }
        if random.one_in(40) {
            line = zeros_before(&line);
        }
        script.extend(line);
        script.push(b'\n');
    }
    script
}

/// Writes the hexadecimal digits above 9 of a setup or begin in upper case.
fn upper_case_hex(line: &mut [u8]) {
    let record = line.iter().rposition(|&byte| byte == b' ').unwrap_or(0);
    line[record..].make_ascii_uppercase();
}

/// Fills the first number of a line up to ten digits.
fn zeros_before(line: &[u8]) -> Vec<u8> {
    let words: Vec<&[u8]> = line.split(|&byte| byte == b' ').collect();
    if words[0] == b"setup" {
        return line.to_vec();
    }
    let mut filled = words[1].to_vec();
    while filled.len() < 10 {
        filled.insert(0, b'0');
    }
    let mut out = words.clone();
    out[1] = &filled;
    out.join(&b' ')
}

/// Lines that are not of the language's form.
const MALFORMED: [&[u8]; 62] = [
    b" ",
    b" step 0",
    b"step 0 ",
    b"step  0",
    b"step 0  1",
    b"step 0 1 ",
    b"step\t0",
    b"step 0\t",
    b"step 0\r",
    b"\r",
    b"\t",
    b" # no remark",
    b"step",
    b"step ",
    b"step 0 1 2",
    b"step -1",
    b"step +1",
    b"step -",
    b"step 0 -",
    b"step 1a",
    b"step 0x1",
    b"step 00000000000",
    b"step 4294967296",
    b"step 9999999999",
    b"step 0 4294967296",
    b"step 0 1.",
    b"STEP 0",
    b"Step 0",
    b"steps 0",
    b"ste 0",
    b"collect",
    b"collect 0 1",
    b"drop",
    b"drop 0 0",
    b"word",
    b"word 0 0",
    b"lock",
    b"lock -",
    b"show 0",
    b"show 0 513",
    b"show 0 4294967295",
    b"show 0 1 1",
    b"park",
    b"park 513",
    b"park -",
    b"setup",
    b"setup 0",
    b"setup 0g",
    b"setup --",
    b"setup 00-",
    b"setup 00 00",
    b"setup ",
    b"begin 0 0",
    b"begin 0 0 ",
    b"begin 0 0 000",
    b"begin 0 0 00 ",
    b"begin 0 0 0x00",
    b"begin 0 - 00",
    b"begin 0 0 00 00",
    b"step 0\0",
    b"\xff\xfe",
    b"park \xc3\xa9",
];

/// Lines that are not of the language's form, those with one byte too many
/// among them.
pub fn malformed() -> Vec<Vec<u8>> {
    let mut lines: Vec<Vec<u8>> = MALFORMED.iter().map(|line| line.to_vec()).collect();
    let too_long = "5a".repeat(LONGEST_BYTES + 1);
    lines.push(format!("setup {too_long}").into_bytes());
    lines.push(format!("begin 0 0 {too_long}").into_bytes());
    lines
}

/// Scripts at the edges of the language: none at all, each line that is not
/// of the form, and the longest script and one byte more.
pub fn edge_scripts() -> Vec<Vec<u8>> {
    let mut scripts: Vec<Vec<u8>> = vec![
        Vec::new(),
        b"\n".to_vec(),
        b"\n\n#\n".to_vec(),
        b"word 0".to_vec(),
        b"word 0\n".to_vec(),
        b"word 0\n\n".to_vec(),
        b"#\xff\x00 anything\nword 0\n#".to_vec(),
        b"step 0 0\nstep 8 0\nstep 4294967295 0\nstep 0000000000 0000000000".to_vec(),
        b"setup -\nbegin 0 0 -\nshow 0 0\npark 0\npark 512\nshow 31 512\n".to_vec(),
    ];
    let longest = "00".repeat(LONGEST_BYTES);
    scripts.push(format!("setup {longest}\nbegin 0 0 {longest}\nword 0\n").into_bytes());
    for line in malformed() {
        let mut script = b"word 0\n".to_vec();
        script.extend(line);
        script.extend(b"\nword 0\n");
        scripts.push(script);
    }
    for over in [0, 1] {
        for end in [b"\nword 0".as_slice(), b"\nword 0\n"] {
            let mut script = b"word 0\n#".to_vec();
            script.resize(LONGEST_SCRIPT + over - end.len(), b'.');
            script.extend(end);
            scripts.push(script);
        }
    }
    scripts
}
