//! The engine in place: workers, locks, words and sheets, and the calls on
//! them, straight from document 01, with request 02's count of filled entries,
//! request 03's answer, worn, and request 04's longer jobs. The numbers in
//! comments such as "step 4" are those of "One try, step by step".

use crate::job;
use std::ops::Range;

/// One instruction of a job: op, a, b, c.
pub type Instruction = [u8; 4];

/// A refusal: its number in the table, or the 17 of a call record that
/// request 01 adds, or the 18, 19 and 20 of books that request 08 adds; and
/// its place.
#[derive(Clone, Copy, PartialEq, Eq, Debug)]
pub struct Refusal {
    pub number: u32,
    pub place: u32,
}

/// A refusal with a place.
pub(crate) fn refused_at<T>(number: u32, place: usize) -> Result<T, Refusal> {
    let place = place as u32;
    Err(Refusal { number, place })
}

/// A refusal that has place 0.
pub(crate) fn refused<T>(number: u32) -> Result<T, Refusal> {
    refused_at(number, 0)
}

/// What a finished try answers.
#[derive(Clone, Copy, PartialEq, Eq, Debug)]
pub enum Answer {
    RanYes,
    RanNo,
    /// The job was not run; its lock may be worn by now.
    NotTaken,
    /// The job was not run: step 1 found its lock worn.
    Worn,
}

impl Answer {
    /// The number under which collect hands it out.
    pub fn number(self) -> u32 {
        match self {
            Answer::RanYes => 1,
            Answer::RanNo => 2,
            Answer::NotTaken => 3,
            Answer::Worn => 4,
        }
    }
}

/// What collect hands out.
#[derive(Clone, Copy, PartialEq, Eq, Debug)]
pub struct Collected {
    pub answer: Answer,
    /// The accepted steps since begin.
    pub steps: u32,
    /// The entries that this worker was the first to fill in its try.
    pub filled: u32,
}

/// A word: its value, its count of changes and its guarding lock.
#[derive(Clone, Copy, PartialEq, Eq, Debug)]
pub struct Word {
    pub value: u32,
    pub count: u32,
    pub guard: usize,
}

/// A lock word: its turn, and the holding sheet or none when it is free.
#[derive(Clone, Copy, PartialEq, Eq, Debug)]
pub struct LockWord {
    pub turn: u32,
    pub sheet: Option<usize>,
}

impl LockWord {
    /// Free at the last turn: it stays so until the next setup.
    pub const WORN: LockWord = LockWord {
        turn: Engine::LAST_TURN,
        sheet: None,
    };
}

/// A filled log entry, and also what one reading of a word gives.
#[derive(Clone, Copy, PartialEq, Eq, Debug)]
struct Entry {
    value: u32,
    count: u32,
}

/// A sheet's program (places past its length are zero) and its done mark.
/// Its log stands among the engine's entries.
#[derive(Clone, Copy, PartialEq, Eq, Debug)]
struct Sheet {
    program: [Instruction; Engine::INSTRUCTIONS],
    length: usize,
    done: bool,
}

const FREE_SHEET: Sheet = Sheet {
    program: [[0; 4]; Engine::INSTRUCTIONS],
    length: 0,
    done: false,
};

/// How far the instruction being run has come.
#[derive(Clone, Copy, PartialEq, Eq, Debug)]
enum Part {
    /// Nothing of it is done.
    Start,
    /// The word was read, the commit comes next.
    Commit(Entry),
    /// The entry holds this, the swap comes next.
    Swap(Entry),
}

/// A run of a sheet, own or helped, at one of its instructions.
#[derive(Clone, Copy, PartialEq, Eq, Debug)]
struct Run {
    sheet: usize,
    turn: u32,
    registers: [u32; Engine::REGISTERS],
    instruction: usize,
    place: usize,
    part: Part,
}

/// What is left of a run after its halt: the sheet, the turn under which it
/// won, and the halt's answer.
#[derive(Clone, Copy, PartialEq, Eq, Debug)]
struct End {
    sheet: usize,
    turn: u32,
    yes: bool,
}

/// The named points of a try: the step that comes next.
#[derive(Clone, Copy, PartialEq, Eq, Debug)]
enum Point {
    Look,
    /// The lock word was seen free at this turn.
    Grab {
        turn: u32,
    },
    /// The turn is the one under which the own sheet has won, if it has.
    LookAgain {
        turn: u32,
    },
    ReadMark {
        turn: u32,
        seen: LockWord,
    },
    /// Only with `Wrong::MarkBeforeLook`: the mark is read, the look is not.
    LookLast {
        turn: u32,
        marked: bool,
    },
    Run(Run),
    Mark(End),
    Release(End),
}

/// A try under way.
#[derive(Clone, Copy, PartialEq, Eq, Debug)]
struct Try {
    lock: usize,
    own: usize,
    helped: Option<usize>,
    point: Point,
}

impl Try {
    /// The same try, going on at another point.
    fn at(self, point: Point) -> State {
        State::UnderWay(Try { point, ..self })
    }

    /// The try goes on with a run of the sheet, from instruction 0.
    fn run(self, sheet: usize, turn: u32) -> State {
        self.at(Point::Run(Run {
            sheet,
            turn,
            registers: [0; Engine::REGISTERS],
            instruction: 0,
            place: 0,
            part: Part::Start,
        }))
    }
}

#[derive(Clone, Copy, PartialEq, Eq, Debug)]
enum State {
    Idle,
    UnderWay(Try),
    Finished(Answer),
}

/// A worker's state, and what it counts in its try: the accepted steps, and
/// the entries, on its own sheet or the helped one, that it was the first to
/// fill.
#[derive(Clone, Copy, PartialEq, Eq, Debug)]
struct Worker {
    state: State,
    steps: u32,
    filled: u32,
}

const IDLE: Worker = Worker {
    state: State::Idle,
    steps: 0,
    filled: 0,
};

/// What a worker is doing, for the makers of histories only.
#[derive(Clone, Copy, PartialEq, Eq, Debug)]
pub enum Standing {
    Idle,
    UnderWay,
    Finished,
}

/// The shortcuts that document 01 shuts out, and slips in request 02's count,
/// request 03's answer and request 04's logs. The tests make the engine wrong
/// on purpose with one of them, to see that it is caught.
#[derive(Clone, Copy, PartialEq, Eq, Debug)]
pub enum Wrong {
    /// No shortcut: the engine of document 01.
    Nothing,
    /// Steps 3 and 4 in the other order.
    MarkBeforeLook,
    /// A swap compares the value and not the count.
    SwapByValue,
    /// Steps 6 and 7 in the other order.
    ReleaseBeforeMark,
    /// A sheet is free when its owner leaves, though a helper reads it.
    FreeThoughHelped,
    /// A sheet is free when its owner leaves, though a held lock names it.
    FreeThoughHeld,
    /// A sheet seen at step 3 counts as helped from step 4 only.
    HelpedFromStepFour,
    /// A commit goes on with the own reading though the entry was filled.
    OwnReading,
    /// A commit counts as a filling though the entry was filled.
    EveryCommitCounts,
    /// Fillings of a helped sheet don't count.
    OwnSheetCounts,
    /// Step 1 tells not taken of a worn lock.
    NotTakenOfWorn,
    /// Step 4 that finds nothing to run tells worn of a worn lock.
    WornAtStepFour,
    /// Each log starts in the middle of the one before it.
    LogsOverlap,
}

/// Counts of changes stay below 2 to the 32nd: each turn is one job's.
const _: () = assert!(Engine::MOST_CHANGES as u64 * (Engine::LAST_TURN as u64) < 1 << 32);

/// The whole state.
#[derive(Clone, PartialEq, Eq, Debug)]
pub struct Engine {
    words: Vec<Word>,
    locks: Vec<LockWord>,
    sheets: [Sheet; Engine::SHEETS],
    entries: [Option<Entry>; Engine::SHEETS * Engine::INSTRUCTIONS],
    workers: [Worker; Engine::WORKERS],
    wrong: Wrong,
}

impl Engine {
    pub const WORKERS: usize = 8;
    pub const LOCKS: usize = 16;
    pub const WORDS: usize = 64;
    pub const SHEETS: usize = 32;
    /// The most instructions of a job, and the entries of a sheet's log.
    pub const INSTRUCTIONS: usize = 64;
    pub const REGISTERS: usize = 4;
    pub const LAST_TURN: u32 = 67_108_864;
    /// The most changes of a word that one job makes: all but its halt.
    pub const MOST_CHANGES: u32 = Engine::INSTRUCTIONS as u32 - 1;
    /// The most steps of a run: read, commit and swap for each instruction
    /// but the halt.
    pub const LONGEST_RUN: u32 = 3 * Engine::MOST_CHANGES + 1;
    /// A try's most steps, and those of one that helps from step 1: what
    /// comes before the run, the run, mark and release.
    pub const LONGEST_TRY: u32 = 4 + Engine::LONGEST_RUN + 2;
    pub const LONGEST_HELP: u32 = 1 + Engine::LONGEST_RUN + 2;

    /// The blank state: no locks, no words, idle workers, free sheets.
    pub fn blank() -> Engine {
        Engine::wrong(Wrong::Nothing)
    }

    /// The blank state of an engine that takes one of the shortcuts.
    pub fn wrong(wrong: Wrong) -> Engine {
        Engine {
            words: Vec::new(),
            locks: Vec::new(),
            sheets: [FREE_SHEET; Engine::SHEETS],
            entries: [None; Engine::SHEETS * Engine::INSTRUCTIONS],
            workers: [IDLE; Engine::WORKERS],
            wrong,
        }
    }

    /// A fresh state from a setup record; a refused one gives the blank state.
    pub fn setup(&mut self, record: &[u8]) -> Result<(), Refusal> {
        *self = Engine::wrong(self.wrong);
        let (words, locks) = read_setup(record)?;
        self.words = words;
        self.locks = locks;
        Ok(())
    }

    /// Gives a worker a job to try under a lock.
    pub fn begin(&mut self, worker: u32, lock: u32, record: &[u8]) -> Result<(), Refusal> {
        let worker = worker_index(worker)?;
        match self.workers[worker].state {
            State::UnderWay(_) => return refused(3),
            State::Finished(_) => return refused(4),
            State::Idle => {}
        }
        let lock = self.lock_index(lock)?;
        let guarded = |word: usize| self.words.get(word).is_some_and(|word| word.guard == lock);
        let program = job::taken(record, guarded)?;
        if self.locks[lock] == LockWord::WORN {
            return refused(9);
        }
        // Request 06: of the 32 sheets at most 30 are in use here.
        let free = (0..Engine::SHEETS).find(|&sheet| !self.in_use(sheet));
        let own = free.unwrap_or(Engine::SHEETS - 1);
        let sheet = &mut self.sheets[own];
        *sheet = FREE_SHEET;
        sheet.program[..program.len()].copy_from_slice(program);
        sheet.length = program.len();
        let log = self.log_of(own);
        self.entries[log].fill(None);
        let state = State::UnderWay(Try {
            lock,
            own,
            helped: None,
            point: Point::Look,
        });
        self.workers[worker] = Worker { state, ..IDLE };
        Ok(())
    }

    /// One step of a worker's try.
    pub fn step(&mut self, worker: u32) -> Result<(), Refusal> {
        let worker = worker_index(worker)?;
        let attempt = match self.workers[worker].state {
            State::Idle => return refused(11),
            State::Finished(_) => return refused(4),
            State::UnderWay(attempt) => attempt,
        };
        let (state, filled) = self.one_step(attempt);
        let worker = &mut self.workers[worker];
        worker.state = state;
        worker.steps += 1;
        worker.filled += u32::from(filled);
        Ok(())
    }

    /// Hands out a finished worker's answer and what it counted.
    pub fn collect(&mut self, worker: u32) -> Result<Collected, Refusal> {
        let worker = worker_index(worker)?;
        let Worker {
            state,
            steps,
            filled,
        } = self.workers[worker];
        match state {
            State::Idle => refused(11),
            State::UnderWay(_) => refused(3),
            State::Finished(answer) => {
                self.workers[worker] = IDLE;
                Ok(Collected {
                    answer,
                    steps,
                    filled,
                })
            }
        }
    }

    /// Makes a worker that isn't idle idle. A held lock stays held.
    pub fn drop_worker(&mut self, worker: u32) -> Result<(), Refusal> {
        let worker = worker_index(worker)?;
        if self.workers[worker].state == State::Idle {
            return refused(11);
        }
        self.workers[worker] = IDLE;
        Ok(())
    }

    pub fn read_word(&self, word: u32) -> Result<Word, Refusal> {
        match self.words.get(word as usize) {
            Some(&word) => Ok(word),
            None => refused(16),
        }
    }

    pub fn read_lock(&self, lock: u32) -> Result<LockWord, Refusal> {
        Ok(self.locks[self.lock_index(lock)?])
    }

    /// Writes the job record of a sheet in use; tells how many bytes.
    pub fn show(&self, sheet: u32, buffer: &mut [u8]) -> Result<usize, Refusal> {
        let index = sheet as usize;
        if index >= Engine::SHEETS || !self.in_use(index) {
            return refused(14);
        }
        let sheet = &self.sheets[index];
        let program = sheet.program[..sheet.length].concat();
        let record = job::record(&program).expect("begin took it");
        write(&record, buffer)
    }

    /// Writes the setup record of the present values and turns.
    pub fn park(&self, buffer: &mut [u8]) -> Result<usize, Refusal> {
        if self.locks.is_empty() {
            return refused_at(12, 4);
        }
        if let Some(held) = self.locks.iter().position(|lock| lock.sheet.is_some()) {
            return refused_at(15, held);
        }
        let (words, locks) = (self.words.len(), self.locks.len());
        let mut record = header(6 + 5 * words + 4 * locks, 2);
        record.extend([locks as u8, words as u8]);
        record.extend(self.words.iter().map(|word| word.guard as u8));
        record.extend(self.words.iter().flat_map(|word| word.value.to_le_bytes()));
        record.extend(self.locks.iter().flat_map(|lock| lock.turn.to_le_bytes()));
        write(&record, buffer)
    }

    /// What a worker (0 to 7) is doing.
    pub fn standing(&self, worker: u32) -> Standing {
        match self.workers[worker as usize].state {
            State::Idle => Standing::Idle,
            State::UnderWay(_) => Standing::UnderWay,
            State::Finished(_) => Standing::Finished,
        }
    }

    /// Whether a worker (0 to 7) is in this state just what it is in another
    /// one; for the tests only.
    pub fn worker_as_in(&self, other: &Engine, worker: u32) -> bool {
        self.workers[worker as usize] == other.workers[worker as usize]
    }

    /// Which entries of a sheet's log are filled, a bit for each from the
    /// lowest on; for the checker and the tests only.
    pub fn filled(&self, sheet: usize) -> u64 {
        let log = self.entries[self.log_of(sheet)].iter().rev();
        log.fold(0, |bits, entry| 2 * bits + u64::from(entry.is_some()))
    }

    /// Where a sheet's log stands among the entries.
    fn log_of(&self, sheet: usize) -> Range<usize> {
        let apart = match self.wrong {
            Wrong::LogsOverlap => Engine::INSTRUCTIONS / 2,
            _ => Engine::INSTRUCTIONS,
        };
        let first = sheet * apart;
        first..first + Engine::INSTRUCTIONS
    }

    fn lock_index(&self, lock: u32) -> Result<usize, Refusal> {
        if (lock as usize) < self.locks.len() {
            Ok(lock as usize)
        } else {
            refused(2)
        }
    }

    /// A sheet is in use while a held lock names it, or a worker under way
    /// has it as its own or as the one it helps.
    fn in_use(&self, sheet: usize) -> bool {
        let held = self.locks.iter().any(|lock| lock.sheet == Some(sheet));
        let mut own = false;
        let mut helped = false;
        for worker in &self.workers {
            if let State::UnderWay(attempt) = worker.state {
                own |= attempt.own == sheet;
                helped |= attempt.helped == Some(sheet);
            }
        }
        own || held && self.wrong != Wrong::FreeThoughHeld
            || helped && self.wrong != Wrong::FreeThoughHelped
    }
}

/// One try, step by step.
impl Engine {
    /// The state after one step, and whether the step filled an entry: only
    /// one of 5 can.
    fn one_step(&mut self, attempt: Try) -> (State, bool) {
        let state = match attempt.point {
            Point::Look => self.look(attempt),
            Point::Grab { turn } => self.grab(attempt, turn),
            Point::LookAgain { turn } => self.look_again(attempt, turn),
            Point::ReadMark { turn, seen } => {
                let marked = self.sheets[attempt.own].done;
                self.turn_to(attempt, turn, seen, marked)
            }
            Point::LookLast { turn, marked } => {
                let seen = self.locks[attempt.lock];
                self.turn_to(attempt, turn, seen, marked)
            }
            Point::Run(run) => {
                let (point, filled) = self.run_step(run);
                let counts = run.sheet == attempt.own || self.wrong != Wrong::OwnSheetCounts;
                return (attempt.at(point), filled && counts);
            }
            Point::Mark(end) => self.mark(attempt, end),
            Point::Release(end) => self.release(attempt, end),
        };
        (state, false)
    }

    /// Step 1. The held sheet counts as helped from this step on.
    fn look(&mut self, attempt: Try) -> State {
        let seen = self.locks[attempt.lock];
        let turn = seen.turn;
        match seen.sheet {
            Some(held) => {
                let helped = Some(held);
                Try { helped, ..attempt }.run(held, turn)
            }
            None if seen == LockWord::WORN => not_run(self.wrong != Wrong::NotTakenOfWorn),
            None => attempt.at(Point::Grab { turn }),
        }
    }

    /// Step 2. Still what was remembered: free, and the same turn.
    fn grab(&mut self, attempt: Try, turn: u32) -> State {
        let lock = &mut self.locks[attempt.lock];
        if *lock == (LockWord { turn, sheet: None }) {
            lock.turn = turn + 1;
            lock.sheet = Some(attempt.own);
        }
        attempt.at(Point::LookAgain { turn: turn + 1 })
    }

    /// Step 3. Another sheet seen here counts as helped from this step on.
    fn look_again(&mut self, mut attempt: Try, turn: u32) -> State {
        if self.wrong == Wrong::MarkBeforeLook {
            let marked = self.sheets[attempt.own].done;
            return attempt.at(Point::LookLast { turn, marked });
        }
        let seen = self.locks[attempt.lock];
        if self.wrong != Wrong::HelpedFromStepFour {
            attempt.helped = seen.sheet.filter(|&sheet| sheet != attempt.own);
        }
        attempt.at(Point::ReadMark { turn, seen })
    }

    /// Step 4, once the own mark is read. The own sheet runs under the turn
    /// after Look's, a helped one under the turn that step 3 saw. Where there
    /// is none to run, worn is not told, though the lock be so by now.
    fn turn_to(&self, attempt: Try, turn: u32, seen: LockWord, marked: bool) -> State {
        let own = attempt.own;
        match seen.sheet {
            _ if marked || seen.sheet == Some(own) => {
                let helped = None;
                Try { helped, ..attempt }.run(own, turn)
            }
            Some(other) => {
                let helped = Some(other);
                Try { helped, ..attempt }.run(other, seen.turn)
            }
            None => {
                let worn = self.locks[attempt.lock] == LockWord::WORN;
                not_run(worn && self.wrong == Wrong::WornAtStepFour)
            }
        }
    }

    /// One step of 5, and whether it filled an entry.
    fn run_step(&mut self, mut run: Run) -> (Point, bool) {
        let instruction = self.sheets[run.sheet].program[run.instruction];
        let [op, a, b, c] = instruction;
        let (ra, rb) = (usize::from(a), usize::from(b));
        match op {
            0 => {
                let (sheet, turn, yes) = (run.sheet, run.turn, a == 1);
                return (self.after_halt(End { sheet, turn, yes }), false);
            }
            1 => run.registers[ra] = u32::from(b) + 256 * u32::from(c),
            2..=4 => {
                let filled = self.word_step(&mut run, instruction);
                return (Point::Run(run), filled);
            }
            5 => run.registers[ra] = run.registers[ra].wrapping_add(run.registers[rb]),
            6 => run.registers[ra] = run.registers[ra].wrapping_sub(run.registers[rb]),
            7 if run.registers[ra] == run.registers[rb] => run.instruction += usize::from(c),
            7 => {}
            8..=255 => unreachable!("begin takes no such instruction"),
        }
        run.go_on();
        (Point::Run(run), false)
    }

    /// One step of a load, store or cam: read, commit or swap. Tells whether
    /// it filled an entry.
    fn word_step(&mut self, run: &mut Run, [op, a, b, c]: Instruction) -> bool {
        let word = usize::from(if op == 4 { c } else { b });
        let ra = usize::from(a);
        match run.part {
            Part::Start => run.part = Part::Commit(self.reading(word)),
            Part::Commit(read) => {
                let (entry, filled) = self.commit(run, read);
                match op {
                    2 => {
                        run.registers[ra] = entry.value;
                        run.go_on();
                    }
                    4 if entry.value != run.registers[ra] => run.go_on(),
                    _ => run.part = Part::Swap(entry),
                }
                return filled;
            }
            Part::Swap(entry) => {
                let from = if op == 4 { usize::from(b) } else { ra };
                self.swap(word, entry, run.registers[from]);
                run.go_on();
            }
        }
        false
    }

    fn reading(&self, word: usize) -> Entry {
        let Word { value, count, .. } = self.words[word];
        Entry { value, count }
    }

    /// An empty entry takes what was read; the run goes on with what the
    /// entry holds, and the log place rises by one. Also says whether this
    /// commit filled the entry.
    fn commit(&mut self, run: &mut Run, read: Entry) -> (Entry, bool) {
        let log = self.log_of(run.sheet);
        let entry = &mut self.entries[log][run.place];
        run.place += 1;
        let filled = entry.is_none() || self.wrong == Wrong::EveryCommitCounts;
        let held = *entry.get_or_insert(read);
        if self.wrong == Wrong::OwnReading {
            return (read, filled);
        }
        (held, filled)
    }

    /// The word changes only if value and count equal the entry's.
    fn swap(&mut self, word: usize, entry: Entry, new: u32) {
        let word = &mut self.words[word];
        let same_count = word.count == entry.count || self.wrong == Wrong::SwapByValue;
        if word.value == entry.value && same_count {
            word.value = new;
            word.count += 1;
        }
    }

    fn after_halt(&self, end: End) -> Point {
        if self.wrong == Wrong::ReleaseBeforeMark {
            return Point::Release(end);
        }
        Point::Mark(end)
    }

    /// Step 6.
    fn mark(&mut self, attempt: Try, end: End) -> State {
        self.sheets[end.sheet].done = true;
        if self.wrong == Wrong::ReleaseBeforeMark {
            return finish(attempt, end);
        }
        attempt.at(Point::Release(end))
    }

    /// Step 7. A release that doesn't match still ends the try.
    fn release(&mut self, attempt: Try, end: End) -> State {
        let lock = &mut self.locks[attempt.lock];
        let (turn, sheet) = (end.turn, Some(end.sheet));
        if *lock == (LockWord { turn, sheet }) {
            lock.sheet = None;
        }
        if self.wrong == Wrong::ReleaseBeforeMark {
            return attempt.at(Point::Mark(end));
        }
        finish(attempt, end)
    }
}

impl Run {
    /// The instruction is over; the next one comes.
    fn go_on(&mut self) {
        self.instruction += 1;
        self.part = Part::Start;
    }
}

/// Ends a try that ran no sheet.
fn not_run(worn: bool) -> State {
    State::Finished(match worn {
        true => Answer::Worn,
        false => Answer::NotTaken,
    })
}

/// Own sheet: ran, with the halt's answer. Helped sheet: not taken.
fn finish(attempt: Try, end: End) -> State {
    State::Finished(match (end.sheet == attempt.own, end.yes) {
        (true, true) => Answer::RanYes,
        (true, false) => Answer::RanNo,
        (false, _) => Answer::NotTaken,
    })
}

fn worker_index(worker: u32) -> Result<usize, Refusal> {
    if (worker as usize) < Engine::WORKERS {
        Ok(worker as usize)
    } else {
        refused(1)
    }
}

/// The first four bytes of a record.
pub(crate) fn header(length: usize, kind: u16) -> Vec<u8> {
    [(length as u16).to_le_bytes(), kind.to_le_bytes()].concat()
}

/// Writes a record into the first bytes of a lent buffer.
fn write(record: &[u8], buffer: &mut [u8]) -> Result<usize, Refusal> {
    if buffer.len() < record.len() {
        return refused(13);
    }
    buffer[..record.len()].copy_from_slice(record);
    Ok(record.len())
}

/// Checks a record's length field; gives its kind.
pub(crate) fn kind_of(record: &[u8]) -> Result<u16, Refusal> {
    let &[low, high, kind_low, kind_high, ..] = record else {
        return refused(5);
    };
    if usize::from(u16::from_le_bytes([low, high])) != record.len() {
        return refused(5);
    }
    Ok(u16::from_le_bytes([kind_low, kind_high]))
}

/// Checks a record's length field, then its kind.
pub(crate) fn check_header(record: &[u8], kind: u16) -> Result<(), Refusal> {
    if kind_of(record)? != kind {
        return refused(6);
    }
    Ok(())
}

/// The words and lock words of a setup record.
fn read_setup(record: &[u8]) -> Result<(Vec<Word>, Vec<LockWord>), Refusal> {
    check_header(record, 2)?;
    if record.len() < 6 {
        return refused(5);
    }
    let (locks, words) = (usize::from(record[4]), usize::from(record[5]));
    if !(1..=Engine::LOCKS).contains(&locks) {
        return refused_at(12, 4);
    }
    if !(1..=Engine::WORDS).contains(&words) {
        return refused_at(12, 5);
    }
    if record.len() != 6 + 5 * words + 4 * locks {
        return refused(5);
    }
    let number = |at: usize| {
        u32::from_le_bytes([record[at], record[at + 1], record[at + 2], record[at + 3]])
    };
    let mut fresh_words = Vec::new();
    for word in 0..words {
        let guard = usize::from(record[6 + word]);
        if guard >= locks {
            return refused_at(12, 6 + word);
        }
        let value = number(6 + words + 4 * word);
        let count = 0;
        fresh_words.push(Word {
            value,
            count,
            guard,
        });
    }
    let mut fresh_locks = Vec::new();
    for lock in 0..locks {
        let place = 6 + 5 * words + 4 * lock;
        let turn = number(place);
        if turn > Engine::LAST_TURN {
            return refused_at(12, place);
        }
        fresh_locks.push(LockWord { turn, sheet: None });
    }
    Ok((fresh_words, fresh_locks))
}
