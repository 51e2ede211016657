//! The plain engine (request 05): its refusals with their places and their
//! order, what it runs and counts, and that one worker of the step engine,
//! stepped from begin to its end, comes to the same.

mod common;
use common::{bytes, job, job_of_kind, numbers, repeated, A, B, HALT};
use second::alone::Ended;
use second::engine::{Answer, Collected, Engine, LockWord, Refusal, Standing, Word};
use second::generate::plain::{given, Given, LONGEST_TABLE};
use second::generate::{Generator, Kind};
use second::plain::{self, Wrong};
use second::script::{perform, Call};
use std::collections::BTreeMap;

const YES: [u8; 4] = [0, 1, 0, 0];
const BAD: [u8; 4] = [8, 0, 0, 0];

/// Four words under three locks.
const VALUES: [u32; 4] = [5, 9, 7, 3];
const GUARDS: [u8; 4] = [0, 0, 1, 255];

/// What a run told, and the words left.
type Ran = (Result<Ended, Refusal>, Vec<u32>);

/// Runs a record on a copy of the values; a refused call alters none.
fn ran(values: &[u32], guards: &[u8], lock: u32, record: &[u8]) -> Ran {
    let mut left = values.to_vec();
    let told = plain::run(&mut left, guards, lock, record);
    if told.is_err() {
        assert_eq!(left, values);
    }
    (told, left)
}

/// The refusal of a record on the four words.
fn refused(lock: u32, record: &[u8]) -> (u32, u32) {
    numbers(ran(&VALUES, &GUARDS, lock, record).0)
}

/// What a run tells that was not refused.
fn ended(yes: bool, executed: u32) -> Result<Ended, Refusal> {
    Ok(Ended { yes, executed })
}

/// A program on words of lock 0 ends so, with these words left.
fn ends(program: &[[u8; 4]], values: &[u32], yes: bool, executed: u32, left: &[u32]) {
    let guards = vec![0; values.len()];
    let ran = ran(values, &guards, 0, &job(program));
    let right = (ended(yes, executed), left.to_vec());
    assert_eq!(ran, right, "{program:?}");
}

/// Lengths of tables about the longest one, and such as are too long but
/// wouldn't be if they were cut to a byte or two.
const LENGTHS: [usize; 13] = [0, 1, 2, 63, 64, 65, 66, 255, 256, 257, 320, 65_536, 65_600];

/// 16 exactly where the tables differ in length or exceed 64, whatever the
/// record is; else what the record is refused for.
#[test]
fn refusal_16_before_any_other() {
    let mut long = job(&[HALT]);
    long[0] += 4;
    let records = [
        (Vec::new(), (5, 0)),
        (long, (5, 0)),
        (job_of_kind(3, &[BAD]), (6, 0)),
        (job_of_kind(4, &[BAD]), (5, 0)),
        (job(&[HALT, BAD]), (7, 1)),
        (job(&[HALT, [2, 0, 255, 0], HALT]), (8, 1)),
        (job(&[HALT]), (0, 0)),
    ];
    for words in LENGTHS {
        for of_guards in LENGTHS {
            let (values, guards) = (vec![5; words], vec![1; of_guards]);
            let tables = words == of_guards && words <= 64;
            for (record, told) in &records {
                let told = if tables { *told } else { (16, 0) };
                let ran = ran(&values, &guards, 1, record);
                assert_eq!(numbers(ran.0), told, "{words} {of_guards}");
            }
        }
    }
}

/// The length field, then the kind, then the count, then the instructions.
/// All of these are badly formed and name no word as well: 7 comes first.
#[test]
fn the_order_of_a_record() {
    for count in [0, 1, 2, 31, 32, 33, 63, 64, 65] {
        for kind in [0, 1, 2, 3, 4, 5, 257, 260, 1024] {
            let mut record = job_of_kind(kind, &vec![[2, 4, 64, 0]; count]);
            let told = match (kind, count) {
                (1, 1..=32) | (4, 33..=64) => (7, 0),
                (1 | 4, _) => (5, 0),
                _ => (6, 0),
            };
            assert_eq!(refused(0, &record), told, "kind {kind}, {count}");
            record.push(0);
            assert_eq!(refused(0, &record), (5, 0));
            record[0] += 1;
            let told = if matches!(kind, 1 | 4) { 5 } else { 6 };
            assert_eq!(refused(0, &record), (told, 0));
            record[1] ^= 1;
            assert_eq!(refused(0, &record), (5, 0));
        }
    }
    for length in 0..8 {
        assert_eq!(refused(0, &job(&[HALT])[..length]), (5, 0));
    }
    // A length that does not fit its field.
    let mut long = vec![0; 65_536 + 8];
    long[..4].copy_from_slice(&[8, 0, 1, 0]);
    assert_eq!(refused(0, &long), (5, 0));
}

/// Both kinds are taken, each with its own counts.
#[test]
fn both_kinds_of_job() {
    for count in 1..=64 {
        let program = vec![HALT; count];
        for kind in [1, 4] {
            let right = (kind == 1) == (count <= 32);
            let told = if right { (0, 0) } else { (5, 0) };
            assert_eq!(refused(0, &job_of_kind(kind, &program)), told);
        }
    }
}

/// The lowest faulty instruction is told, at each place of the longest job;
/// the stores before it have altered nothing.
#[test]
fn refusals_7_and_8_at_every_place() {
    for place in 0..64 {
        let at = |instruction: [u8; 4]| {
            let mut program = repeated([3, 0, 1, 0], 64);
            program[place] = instruction;
            if place < 62 {
                program[62] = [4, 4, 0, 2];
            }
            refused(0, &job(&program))
        };
        let no = |number: u32| (number, place as u32);
        let of_word = no(if place == 63 { 7 } else { 8 });
        assert_eq!(at(BAD), no(7));
        // Words of other locks, and no words.
        for word in [2, 3, 4, 63, 64, 255] {
            assert_eq!(at([2, 0, word, 0]), of_word);
            assert_eq!(at([3, 3, word, 0]), of_word);
            assert_eq!(at([4, 0, 3, word]), of_word);
            assert_eq!(at([2, 4, word, 0]), no(7));
        }
        // A skip past the last halt.
        assert_eq!(at([7, 0, 0, 63 - place as u8]), no(7));
    }
    assert_eq!(refused(0, &job(&[HALT, [1, 0, 0, 0]])), (7, 1));
}

/// A word is the lock's where its guard equals the number, all of it.
#[test]
fn locks_of_any_number() {
    for high in [0, 1, 2, 255, 256, 65_536, 1 << 23, (1 << 24) - 1] {
        for low in [0, 1, 2, 254, 255] {
            let lock = 256 * high + low;
            for (word, &guard) in (0..).zip(&GUARDS) {
                let told = match u32::from(guard) == lock {
                    true => (0, 0),
                    false => (8, 0),
                };
                for naming in [[2, 0, word, 0], [3, 0, word, 0], [4, 0, 0, word]] {
                    assert_eq!(refused(lock, &job(&[naming, HALT])), told, "{lock}");
                }
            }
            // A job that names no word runs under every number.
            assert_eq!(refused(lock, &job(&repeated([5, 0, 1, 0], 64))), (0, 0));
            assert_eq!(refused(lock, &job(&[BAD])), (7, 0));
        }
    }
    let stores = job(&[[1, 0, 1, 1], [3, 0, 3, 0], YES]);
    let right = (ended(true, 3), vec![5, 9, 7, 257]);
    assert_eq!(ran(&VALUES, &GUARDS, 255, &stores), right);
}

/// Tables without words, with one and with 64: a word below their length is
/// one, and no other.
#[test]
fn tables_of_every_length() {
    for words in 0..=64 {
        let values: Vec<u32> = (0..words).collect();
        let guards = vec![9; words as usize];
        for word in 0..=255 {
            let copies = [[1, 1, word, 1], [3, 1, word, 0], [2, 2, word, 0], YES];
            let (told, left) = ran(&values, &guards, 9, &job(&copies));
            if u32::from(word) < words {
                assert_eq!(told, ended(true, 4));
                let mut right = values.clone();
                right[usize::from(word)] = 256 + u32::from(word);
                assert_eq!(left, right);
            } else {
                assert_eq!(numbers(told), (8, 1));
            }
        }
        let ran = ran(&values, &guards, 9, &job(&[HALT]));
        assert_eq!(ran, (ended(false, 1), values));
    }
}

/// Each of the eight instructions; registers are 0 at the start.
#[test]
fn the_eight_instructions() {
    ends(&[HALT], &[5], false, 1, &[5]);
    ends(&[YES], &[5], true, 1, &[5]);
    let stores_three = [3, 3, 0, 0];
    ends(&[stores_three, YES], &[5], true, 2, &[0]);
    let set = [[1, 3, 254, 255], stores_three, YES];
    ends(&set, &[5], true, 3, &[65_534]);
    let copies = [[2, 2, 1, 0], [3, 2, 0, 0], HALT];
    ends(&copies, &[5, u32::MAX], false, 3, &[u32::MAX, u32::MAX]);
    let adds = [[2, 0, 0, 0], [2, 3, 1, 0], [5, 3, 0, 0], stores_three, YES];
    ends(&adds, &[2, u32::MAX], true, 5, &[1, u32::MAX]);
    let subtracts = [[2, 0, 0, 0], [2, 3, 1, 0], [6, 3, 0, 0], stores_three, YES];
    ends(&subtracts, &[2, 1], true, 5, &[u32::MAX, 1]);
    let skips = [[2, 0, 0, 0], [2, 1, 1, 0], [7, 0, 1, 1], HALT, YES];
    ends(&skips, &[5, 9], false, 4, &[5, 9]);
    ends(&skips, &[9, 9], true, 4, &[9, 9]);
}

/// A cam writes where the word equals register a, and nowhere else.
#[test]
fn cams() {
    let cam = [[1, 1, 5, 0], [1, 2, 6, 0], [4, 1, 2, 0], YES];
    ends(&cam, &[5, 5], true, 4, &[6, 5]);
    for other in [0, 4, 6, 256 + 5, u32::MAX] {
        ends(&cam, &[other, 5], true, 4, &[other, 5]);
    }
    let twice = [[4, 0, 0, 0], [1, 1, 7, 0], [4, 0, 1, 0], [4, 0, 1, 0], HALT];
    ends(&twice, &[0], false, 5, &[7]);
    ends(&twice, &[1], false, 5, &[1]);
}

/// The halt counts; what is passed over, and what stands after the halt that
/// was reached, doesn't.
#[test]
fn counts() {
    let stores = repeated([3, 0, 0, 0], 64);
    ends(&stores, &[5], false, 64, &[0]);
    let from = |place: usize, instruction: [u8; 4]| {
        let mut program = stores.clone();
        program[place] = instruction;
        program
    };
    ends(&from(0, [7, 0, 0, 62]), &[5], false, 2, &[5]);
    ends(&from(0, [7, 2, 3, 61]), &[5], false, 3, &[0]);
    ends(&from(61, [7, 1, 1, 1]), &[5], false, 63, &[0]);
    ends(&from(0, YES), &[5], true, 1, &[5]);
    ends(&from(40, YES), &[5], true, 41, &[0]);
    // One that passes over nothing, since its registers differ.
    let mut unequal = from(1, [7, 0, 1, 61]);
    unequal[0] = [1, 0, 1, 0];
    ends(&unequal, &[5], false, 64, &[1]);
    // Every other one is passed over.
    let mut skips = [[7, 0, 0, 1], [3, 0, 0, 0]].repeat(32);
    skips[62..].fill(HALT);
    ends(&skips, &[5], false, 32, &[5]);
}

/// The example table's jobs: A adds 1 to word 0, B compares words 0 and 1.
#[test]
fn jobs_a_and_b() {
    let on_four = |record: &str| ran(&VALUES, &GUARDS, 0, &bytes(record));
    assert_eq!(on_four(A), (ended(true, 5), vec![6, 9, 7, 3]));
    assert_eq!(on_four(B), (ended(false, 4), VALUES.to_vec()));
    assert_eq!(refused(1, &bytes(A)), (8, 0));
    let mut b = bytes(B);
    b[4 + 4 * 2 + 3] = 2;
    assert_eq!(refused(0, &b), (7, 2));
}

fn words_of(engine: &Engine) -> Vec<Word> {
    (0..)
        .map_while(|word| engine.read_word(word).ok())
        .collect()
}

fn locks_of(engine: &Engine) -> Vec<LockWord> {
    (0..)
        .map_while(|lock| engine.read_lock(lock).ok())
        .collect()
}

/// A begin of an idle worker on a free lock below the last turn, and the
/// state before it: what is refused is refused for the record.
struct Begin<'a> {
    engine: &'a Engine,
    worker: u32,
    lock: u32,
    record: &'a [u8],
}

impl Begin<'_> {
    /// The worker stepped to its end, all others standing still: the state
    /// then, and what it collects.
    fn stepped(&self) -> Result<(Engine, Collected), Refusal> {
        let mut after = self.engine.clone();
        after.begin(self.worker, self.lock, self.record)?;
        while after.step(self.worker).is_ok() {}
        let told = after.collect(self.worker)?;
        Ok((after, told))
    }

    /// Whether a plain engine, given the words' values and guards, comes to
    /// what stepping comes to: the same refusal, or the same answer and words.
    /// The count is told by steps too: 6 are for no instruction; load, store
    /// and cam take one more each to fill an entry, and one more to change
    /// their word; all others take one.
    fn comes_to(
        &self,
        plain: impl Fn(&mut [u32], &[u8], u32, &[u8]) -> Result<Ended, Refusal>,
    ) -> bool {
        let before = words_of(self.engine);
        let values: Vec<u32> = before.iter().map(|word| word.value).collect();
        let guards: Vec<u8> = before.iter().map(|word| word.guard as u8).collect();
        let mut left = values.clone();
        let told = plain(&mut left, &guards, self.lock, self.record);
        let (after, collected) = match self.stepped() {
            Ok(stepped) => stepped,
            Err(no) => return told == Err(no) && left == values,
        };
        let words = words_of(&after);
        let count = |words: &[Word]| words.iter().map(|word| word.count).sum::<u32>();
        let changes = count(&words) - count(&before);
        let ended = Ended {
            yes: collected.answer == Answer::RanYes,
            executed: collected.steps - 6 - collected.filled - changes,
        };
        let ran = matches!(collected.answer, Answer::RanYes | Answer::RanNo);
        ran && told == Ok(ended) && words.iter().map(|word| word.value).eq(left)
    }

    /// The lock is free at the next turn, and all that is not this lock's or
    /// this worker's is as it was.
    fn leaves_the_others(&self, after: &Engine) {
        let Begin { engine, lock, .. } = *self;
        for (word, was) in words_of(after).iter().zip(words_of(engine)) {
            assert_eq!(word.guard, was.guard);
            assert!(*word == was || was.guard == lock as usize);
        }
        let mut locks = locks_of(engine);
        locks[lock as usize].turn += 1;
        assert_eq!(locks_of(after), locks);
        // This one is idle again.
        for worker in 0..8 {
            assert!(after.worker_as_in(engine, worker));
        }
        for sheet in 0..32 {
            let (mut shown, mut was) = ([0; 260], [0; 260]);
            let length = engine.show(sheet, &mut was);
            assert_eq!(after.show(sheet, &mut shown), length);
            assert_eq!(shown, was);
            let filled = after.filled(sheet as usize) == engine.filled(sheet as usize);
            assert!(filled || length.is_err());
        }
    }
}

/// Goes through such begins of random histories, with workers under way and
/// dropped, at other locks and at this one.
fn random_begins(histories: u64, mut each: impl FnMut(Begin)) {
    for seed in 0..histories {
        let kind = if seed % 4 == 0 {
            Kind::Narrow
        } else {
            Kind::Wide
        };
        let mut generator = Generator::new(seed, kind);
        let mut engine = Engine::blank();
        for _ in 0..300 {
            let call = generator.next(&engine);
            if let &Call::Begin {
                worker,
                lock,
                ref record,
            } = &call
            {
                let idle = worker < 8 && engine.standing(worker) == Standing::Idle;
                let seen = engine.read_lock(lock);
                let free = seen.is_ok_and(|lock| lock.sheet.is_none() && lock != LockWord::WORN);
                if idle && free {
                    each(Begin {
                        engine: &engine,
                        worker,
                        lock,
                        record,
                    });
                }
            }
            perform(&mut engine, &call);
        }
    }
}

/// The request's second equality, and the refusals "as in begin".
#[test]
fn as_the_step_engine() {
    let mut found: BTreeMap<u32, u32> = BTreeMap::new();
    let mut beside_others = 0;
    random_begins(1_000, |begin| {
        assert!(begin.comes_to(plain::run));
        let number = match begin.stepped() {
            Ok((after, _)) => {
                begin.leaves_the_others(&after);
                let other = |worker| begin.engine.standing(worker) == Standing::UnderWay;
                beside_others += u32::from((0..8).any(other));
                0
            }
            Err(no) => no.number,
        };
        *found.entry(number).or_default() += 1;
    });
    println!("{found:?}, {beside_others} beside others");
    assert!(found[&0] >= 10_000 && beside_others >= 5_000);
    assert!([5, 6, 7, 8].iter().all(|number| found[number] >= 100));
    assert_eq!(found.len(), 5);
}

/// Of the wrong engines it tells those whose slip is not about tables or
/// locks that no setup gives.
#[test]
fn the_step_engine_tells_wrong_ones() {
    let mut apart = Wrong::ALL.map(|wrong| (wrong, 0));
    random_begins(100, |begin| {
        for (wrong, told) in &mut apart {
            let run = |values: &mut [u32], guards: &[u8], lock, record: &[u8]| {
                wrong.run(values, guards, lock, record)
            };
            *told += u32::from(!begin.comes_to(run));
        }
    });
    println!("{apart:?}");
    for (wrong, told) in apart {
        let seen = matches!(
            wrong,
            Wrong::PassedOverCounts
                | Wrong::HaltNotCounted
                | Wrong::CamAlwaysWrites
                | Wrong::AnyGuard
                | Wrong::RunUpToTheFault
        );
        assert_eq!(told > 0, seen, "{wrong:?}");
    }
}

const RUNS: u64 = 100_000;

/// Random runs tell every wrong engine, by what it tells or the words it
/// leaves.
#[test]
fn random_runs_tell_wrong_engines() {
    let mut apart = Wrong::ALL.map(|wrong| (wrong, 0));
    for seed in 0..RUNS {
        let Given {
            values,
            guards,
            lock,
            record,
        } = given(seed);
        let right = ran(&values, &guards, lock, &record);
        for (wrong, told) in &mut apart {
            let mut left = values.clone();
            let ran = wrong.run(&mut left, &guards, lock, &record);
            *told += u32::from((ran, left) != right);
        }
    }
    println!("{apart:?}");
    for (wrong, told) in apart {
        assert!(told >= 20, "{wrong:?}: {told}");
    }
}

/// What stands out in a run, by name.
fn names(given: &Given) -> Vec<String> {
    let Given {
        values,
        guards,
        lock,
        record,
    } = given;
    let (told, left) = ran(values, guards, *lock, record);
    let mut names = match told {
        Ok(Ended { yes, executed }) => vec![format!("ran {yes}"), format!("executed {executed}")],
        Err(no) => vec![format!("refused {}", no.number)],
    };
    if values.len() == guards.len() {
        names.push(format!("tables of {}", values.len()));
    }
    let equal = guards.iter().any(|&guard| u32::from(guard) == *lock);
    let cut = !equal && guards.contains(&(*lock as u8));
    let others = [
        ("altered", left != *values),
        ("more values", values.len() > guards.len()),
        ("more guards", values.len() < guards.len()),
        ("lock 0", *lock == 0 && equal),
        ("lock 255", *lock == 255 && equal),
        ("lock 256", *lock == 256 && cut),
        ("the last lock", *lock == u32::MAX && cut),
        ("a guard if cut", cut),
        ("a guard if cut, ran", cut && told.is_ok()),
    ];
    let there = others.into_iter().filter(|&(_, there)| there);
    names.extend(there.map(|(name, _)| name.to_string()));
    names
}

/// Random runs come to every answer, refusal, length of tables and count.
#[test]
fn random_runs_reach_everything() {
    let mut found: BTreeMap<String, u32> = BTreeMap::new();
    for seed in 0..RUNS {
        for name in names(&given(seed)) {
            *found.entry(name).or_default() += 1;
        }
    }
    println!("{found:?}");
    for name in [
        "ran true",
        "ran false",
        "altered",
        "more values",
        "more guards",
        "lock 0",
        "lock 255",
        "lock 256",
        "the last lock",
        "a guard if cut",
        "a guard if cut, ran",
    ] {
        assert!(found[name] >= 100, "{name}");
    }
    let refusals = [5, 6, 7, 8, 16].map(|number| format!("refused {number}"));
    let tables = (0..=LONGEST_TABLE).map(|words| format!("tables of {words}"));
    let counts = (1..=64).map(|executed| format!("executed {executed}"));
    for name in refusals.into_iter().chain(tables).chain(counts) {
        assert!(found[&name] >= 20, "{name}");
    }
    assert_eq!(given(7), given(7));
}
