//! The checker of demand 3 and of requests 02 to 04. It makes the calls on
//! an engine, keeps for each lock the list of tries that won it, and after
//! every call holds the lock's words and all answers told so far against that
//! list. It also keeps who filled each log entry: one that is empty before a
//! step and filled after it was filled by that step. It knows of the engine
//! only what its calls tell, and which entries are filled.

use crate::alone;
use crate::engine::{Answer, Collected, Engine, Instruction, LockWord, Refusal, Standing, Wrong};
use crate::generate::{Generator, Kind, SHORTEST_JOB};
use crate::job;
use crate::script::{perform, Call, Outcome, Told};

/// A try, from its begin on; its number is its place among all begins.
#[derive(Clone, Debug)]
struct Try {
    lock: usize,
    program: Vec<Instruction>,
    /// The accepted steps since begin.
    steps: u32,
    /// The lock word that its first step, Look, found.
    looked: Option<LockWord>,
    /// It is in its lock's list; the answer is that of its run alone there.
    won: Option<bool>,
    /// The answer that was handed out.
    answered: Option<Answer>,
    /// The numbers of the tries that filled the entries of its own sheet's
    /// log, whatever became of their workers: one for each entry.
    log: Vec<usize>,
}

impl Try {
    /// The most steps that it takes: Look is the only one on a worn lock.
    fn bound(&self) -> u32 {
        match self.looked {
            Some(LockWord::WORN) => 1,
            Some(LockWord { sheet: Some(_), .. }) => Engine::LONGEST_HELP,
            _ => Engine::LONGEST_TRY,
        }
    }

    /// Its answer in the list; outside every list not taken or worn, the
    /// latter exactly where Look found the lock worn.
    fn right_answer(&self) -> Answer {
        match self.won {
            Some(true) => Answer::RanYes,
            Some(false) => Answer::RanNo,
            None if self.looked == Some(LockWord::WORN) => Answer::Worn,
            None => Answer::NotTaken,
        }
    }
}

/// What is kept for one lock.
#[derive(Clone, Debug)]
struct Kept {
    /// The words it guards.
    guarded: Vec<usize>,
    /// The numbers of the tries that won it, in order.
    list: Vec<usize>,
    /// All words' values (those guarded here matter) after each number of
    /// executed instructions of the list's last job, from none to all, when
    /// the jobs before it have run; the values at setup while there is none.
    parts: Vec<Vec<u32>>,
    /// The turn at setup, and the lock word after the last call.
    first_turn: u32,
    seen: LockWord,
}

/// What is kept for one sheet.
#[derive(Clone, Copy, Debug)]
struct Taken {
    /// The number of the try whose begin took it last.
    by: Option<usize>,
    /// Which entries of its log were filled after the last call, as bits.
    filled: u64,
}

const NOT_TAKEN: Taken = Taken {
    by: None,
    filled: 0,
};

/// What was found to be broken, in words.
pub type Broken = String;

/// An engine, and what its calls so far have to come to.
pub struct Checker {
    engine: Engine,
    at_setup: Vec<u32>,
    kept: Vec<Kept>,
    tries: Vec<Try>,
    /// The number of each worker's try.
    current: [Option<usize>; Engine::WORKERS],
    taken: [Taken; Engine::SHEETS],
    shared: u32,
}

impl Checker {
    pub fn new(engine: Engine) -> Checker {
        let mut checker = Checker {
            engine,
            at_setup: Vec::new(),
            kept: Vec::new(),
            tries: Vec::new(),
            current: [None; Engine::WORKERS],
            taken: [NOT_TAKEN; Engine::SHEETS],
            shared: 0,
        };
        checker.start_afresh();
        checker
    }

    pub fn engine(&self) -> &Engine {
        &self.engine
    }

    /// The numbers of the tries that won a lock, in order.
    pub fn list(&self, lock: usize) -> &[usize] {
        &self.kept[lock].list
    }

    /// How many collected tries had filled some entries of a log, and not all
    /// of them.
    pub fn shared(&self) -> u32 {
        self.shared
    }

    /// Makes a call and checks what came of it. Several steps in one call
    /// are checked one by one.
    pub fn call(&mut self, call: &Call) -> Result<Outcome, Broken> {
        let Call::Step { worker, times } = *call else {
            return self.single(call);
        };
        let mut accepted = 0;
        let mut refusal = None;
        while accepted < times && refusal.is_none() {
            refusal = self.single(&Call::Step { worker, times: 1 })?.refusal;
            accepted += u32::from(refusal.is_none());
        }
        let told = Told::Steps(accepted);
        Ok(Outcome { refusal, told })
    }

    fn single(&mut self, call: &Call) -> Result<Outcome, Broken> {
        let free = match call {
            Call::Begin { .. } => self.lowest_free(),
            _ => None,
        };
        let outcome = perform(&mut self.engine, call);
        let mut stepped = None;
        let accepted = outcome.refusal.is_none();
        match call {
            Call::Setup(_) => self.start_afresh(),
            Call::Begin {
                worker,
                lock,
                record,
            } if accepted => self.note_begin(*worker, *lock, record, free)?,
            Call::Step { worker, .. } if accepted => stepped = Some(self.note_step(*worker)?),
            Call::Collect(worker) if accepted => self.note_collect(*worker, &outcome.told)?,
            Call::Drop(worker) if accepted => self.current[*worker as usize] = None,
            _ => {}
        }
        for lock in 0..self.kept.len() {
            self.check_lock(lock, stepped)?;
            self.check_words(lock)?;
        }
        self.check_answers()?;
        for sheet in 0..Engine::SHEETS {
            self.check_log(sheet, stepped)?;
        }
        Ok(outcome)
    }

    /// The sheet that a begin takes, by what show says of each.
    fn lowest_free(&self) -> Option<usize> {
        let free = |&sheet: &usize| {
            let shown = self.engine.show(sheet as u32, &mut []);
            matches!(shown, Err(Refusal { number: 14, .. }))
        };
        (0..Engine::SHEETS).find(free)
    }

    /// Reads the state that a setup, accepted or refused, has given.
    fn start_afresh(&mut self) {
        let engine = &self.engine;
        let words = (0..).map_while(|word| engine.read_word(word).ok());
        let words: Vec<_> = words.collect();
        let locks = (0..).map_while(|lock| engine.read_lock(lock).ok());
        self.at_setup = words.iter().map(|word| word.value).collect();
        self.kept = locks
            .enumerate()
            .map(|(lock, seen)| Kept {
                guarded: (0..words.len())
                    .filter(|&word| words[word].guard == lock)
                    .collect(),
                list: Vec::new(),
                parts: vec![self.at_setup.clone()],
                first_turn: seen.turn,
                seen,
            })
            .collect();
        self.tries = Vec::new();
        self.current = [None; Engine::WORKERS];
        self.taken = [NOT_TAKEN; Engine::SHEETS];
    }

    /// An accepted begin, and the sheet that was the lowest free one: the
    /// lock is not worn, and show gives the job record back.
    fn note_begin(
        &mut self,
        worker: u32,
        lock: u32,
        record: &[u8],
        free: Option<usize>,
    ) -> Result<(), Broken> {
        let number = self.tries.len();
        let Ok(program) = job::program(record, job::NOW) else {
            return Err(format!("try {number} begins without a job record"));
        };
        let Some(sheet) = free else {
            return Err(format!("try {number} begins without a free sheet"));
        };
        let mut shown = vec![0; record.len()];
        if self.engine.show(sheet as u32, &mut shown) != Ok(record.len()) || shown != record {
            return Err(format!("try {number} has another job on sheet {sheet}"));
        }
        let lock = lock as usize;
        if self.kept[lock].seen == LockWord::WORN {
            return Err(format!("try {number} begins on a worn lock"));
        }
        self.current[worker as usize] = Some(number);
        self.taken[sheet].by = Some(number);
        self.tries.push(Try {
            lock,
            program: program.to_vec(),
            steps: 0,
            looked: None,
            won: None,
            answered: None,
            log: Vec::new(),
        });
        Ok(())
    }

    /// An accepted step: the try is still within its bound.
    fn note_step(&mut self, worker: u32) -> Result<usize, Broken> {
        let Some(number) = self.current[worker as usize] else {
            return Err(format!("worker {worker} steps without a try"));
        };
        let attempt = &mut self.tries[number];
        let seen = self.kept[attempt.lock].seen;
        attempt.looked = attempt.looked.or(Some(seen));
        attempt.steps += 1;
        let bound = attempt.bound();
        if attempt.steps > bound {
            return Err(format!("try {number} takes more than {bound} steps"));
        }
        Ok(number)
    }

    /// An accepted collect: the numbers are those of the steps and of the
    /// fillings.
    fn note_collect(&mut self, worker: u32, told: &Told) -> Result<(), Broken> {
        let Some(number) = self.current[worker as usize].take() else {
            return Err(format!("worker {worker} collects without a try"));
        };
        let &Told::Collected(Some(Collected {
            answer,
            steps,
            filled,
        })) = told
        else {
            return Err(format!("a collect tells {told:?}"));
        };
        self.check_fillings(number, filled)?;
        let attempt = &mut self.tries[number];
        attempt.answered = Some(answer);
        if steps != attempt.steps {
            let accepted = attempt.steps;
            return Err(format!("try {number} tells {steps} steps, not {accepted}"));
        }
        Ok(())
    }

    /// Every answer that was handed out is right, also after the calls since.
    fn check_answers(&self) -> Result<(), Broken> {
        for (number, attempt) in self.tries.iter().enumerate() {
            let right = attempt.right_answer();
            if let Some(answer) = attempt.answered.filter(|&answer| answer != right) {
                let (answer, right) = (answer.number(), right.number());
                return Err(format!("try {number} is told answer {answer}, not {right}"));
            }
        }
        Ok(())
    }

    /// A try tells as many fillings as its steps made.
    fn check_fillings(&mut self, number: usize, filled: u32) -> Result<(), Broken> {
        let mut made = 0;
        for Try { log, .. } in &self.tries {
            let part = log.iter().filter(|&&by| by == number).count();
            made += part as u32;
            self.shared += u32::from(0 < part && part < log.len());
        }
        if filled != made {
            return Err(format!("try {number} tells {filled} fillings, not {made}"));
        }
        Ok(())
    }

    /// The fillings by steps since the begin that took the sheet are as many
    /// as the filled entries of its log.
    fn check_log(&mut self, sheet: usize, stepped: Option<usize>) -> Result<(), Broken> {
        let now = self.engine.filled(sheet);
        let Taken { by, filled: before } = self.taken[sheet];
        self.taken[sheet].filled = now;
        let fillings = (now & !before).count_ones() as usize;
        let entries = now.count_ones() as usize;
        if let (Some(owner), Some(number)) = (by, stepped) {
            let filled_by = std::iter::repeat_n(number, fillings);
            self.tries[owner].log.extend(filled_by);
        }
        let made = by.map_or(0, |owner| self.tries[owner].log.len());
        if entries != made {
            return Err(format!(
                "sheet {sheet} has {entries} entries of {made} fillings"
            ));
        }
        Ok(())
    }

    /// A lock word changes only in a step: won from free, with the next
    /// turn, by the try that made the step; or released, with the same turn.
    /// A worn one does not change.
    fn check_lock(&mut self, lock: usize, stepped: Option<usize>) -> Result<(), Broken> {
        let Ok(now) = self.engine.read_lock(lock as u32) else {
            return Err(format!("lock {lock} can't be read"));
        };
        let before = std::mem::replace(&mut self.kept[lock].seen, now);
        if now != before {
            let change = format!("lock {lock} goes from {before:?} to {now:?}");
            let Some(number) = stepped.filter(|&number| self.tries[number].lock == lock) else {
                return Err(format!("{change} by no step of a try on it"));
            };
            match (before.sheet, now.sheet) {
                _ if before == LockWord::WORN => return Err(change),
                (None, Some(_)) if now.turn == before.turn + 1 => self.note_win(number)?,
                (Some(_), None) if now.turn == before.turn => {}
                _ => return Err(change),
            }
        }
        let kept = &self.kept[lock];
        let turn = kept.first_turn + kept.list.len() as u32;
        if now.turn != turn || turn > Engine::LAST_TURN {
            return Err(format!("lock {lock} has turn {}, not {turn}", now.turn));
        }
        Ok(())
    }

    /// Puts a try at the end of its lock's list: the last job before it has
    /// run in full, and its own run alone starts from there.
    fn note_win(&mut self, number: usize) -> Result<(), Broken> {
        let attempt = &mut self.tries[number];
        if attempt.won.is_some() {
            return Err(format!("try {number} wins again"));
        }
        let kept = &mut self.kept[attempt.lock];
        let start = kept.parts.last().expect("there is always one part");
        let (parts, ended) = alone::first_parts(&attempt.program, start);
        attempt.won = Some(ended.yes);
        kept.list.push(number);
        kept.parts = parts;
        Ok(())
    }

    /// A free lock's words are those after all jobs of its list; a held
    /// lock's those after all but the last and some first part of the last.
    /// Each job has changed a word as often as it can at most.
    fn check_words(&self, lock: usize) -> Result<(), Broken> {
        let kept = &self.kept[lock];
        let changes = Engine::MOST_CHANGES * kept.list.len() as u32;
        let mut now = Vec::with_capacity(kept.guarded.len());
        for &word in &kept.guarded {
            match self.engine.read_word(word as u32) {
                Ok(read) if read.guard == lock && read.count <= changes => now.push(read.value),
                other => return Err(format!("word {word} reads {other:?}")),
            }
        }
        let same = |part: &Vec<u32>| {
            let mut pairs = kept.guarded.iter().zip(&now);
            pairs.all(|(&word, &value)| part[word] == value)
        };
        let right = match kept.seen.sheet {
            None => kept.parts.last().is_some_and(same),
            Some(_) => kept.parts.iter().any(same),
        };
        if !right {
            let (guarded, list) = (&kept.guarded, &kept.list);
            let held = kept.seen.sheet;
            return Err(format!(
                "lock {lock}, held by {held:?}: words {guarded:?} are {now:?} after tries {list:?}"
            ));
        }
        Ok(())
    }

    /// Closes a history: runs every list once more from setup on, and lets
    /// any idle worker's try alone free each held lock.
    pub fn close(&mut self) -> Result<(), Broken> {
        for lock in 0..self.kept.len() {
            self.free(lock)?;
            let kept = &self.kept[lock];
            let mut words = self.at_setup.clone();
            for &number in &kept.list {
                let attempt = &self.tries[number];
                let ended = alone::run(&attempt.program, &mut words);
                if attempt.won != Some(ended.yes) {
                    return Err(format!("try {number} answers otherwise in the list"));
                }
            }
            for &word in &kept.guarded {
                let value = self.engine.read_word(word as u32).map(|read| read.value);
                if value != Ok(words[word]) {
                    return Err(format!("word {word} is {value:?}, not {}", words[word]));
                }
            }
        }
        Ok(())
    }

    /// One try of one idle worker, alone, frees a held lock.
    fn free(&mut self, lock: usize) -> Result<(), Broken> {
        if self.kept[lock].seen.sheet.is_none() {
            return Ok(());
        }
        let workers = 0..Engine::WORKERS as u32;
        let mut idle = workers.filter(|&worker| self.engine.standing(worker) == Standing::Idle);
        let worker = match idle.next() {
            Some(worker) => worker,
            None => {
                self.call(&Call::Drop(7))?;
                7
            }
        };
        let record = SHORTEST_JOB.to_vec();
        let lock = lock as u32;
        self.call(&Call::Begin {
            worker,
            lock,
            record,
        })?;
        let times = Engine::LONGEST_HELP;
        self.call(&Call::Step { worker, times })?;
        self.call(&Call::Collect(worker))?;
        if self.kept[lock as usize].seen.sheet.is_some() {
            return Err(format!("a whole try alone leaves lock {lock} held"));
        }
        Ok(())
    }
}

/// Makes one random history of so many calls under the checker.
pub fn random_history(wrong: Wrong, seed: u64, kind: Kind, calls: u32) -> Result<(), Broken> {
    let mut generator = Generator::new(seed, kind);
    let mut checker = Checker::new(Engine::wrong(wrong));
    for _ in 0..calls {
        let call = generator.next(checker.engine());
        checker.call(&call)?;
    }
    checker.close()
}
