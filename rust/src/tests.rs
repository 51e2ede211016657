//! The starred rows of document 01's example table, who fills a log's entries,
//! what is told of a lock at its last turn, every refusal that calls can
//! reach, the lent calls with too few numbers, and the records of calls.

use crate::lent::{self, NUMBERS};
use crate::{plain, Answer, Engine, Holder, Job, LockWord, Ran, Recorder, Refusal, Word};
use std::cell::RefCell;
use std::sync::LazyLock;

/// A job record, which is read from the notation once.
pub(crate) type Record = LazyLock<Vec<u8>>;

/// The record of a job in the notation.
pub(crate) fn notated(text: &str) -> Vec<u8> {
    let job: Job = text.parse().expect("it is good");
    job.record().to_vec()
}

/// Setup S: two locks, words 5 and 9 under lock 0, word 7 under lock 1.
const S: [u8; 29] = [
    29, 0, 2, 0, 2, 3, 0, 0, 1, 5, 0, 0, 0, 9, 0, 0, 0, 7, 0, 0, 0, 0, 0, 0, 0, 0, 0, 0, 0,
];
/// Job A adds 1 to word 0.
static A: Record = LazyLock::new(|| {
    notated(
        "
        load r0 w0
        set r1 1
        add r0 r1
        store r0 w0
        halt yes",
    )
});
/// Job B: are words 0 and 1 equal?
static B: Record = LazyLock::new(|| {
    notated(
        "
        load r0 w0
        load r1 w1
        skip 1 if r0 = r1
        halt no
        halt yes",
    )
});
/// Job C, step by step: 1 to 4 lead to the run. Load word 0: 5, and commit 6.
/// Set 9: 7. Cam of word 1, which is not 5: 8, and commit 9. Cam of word 1,
/// which is 9 and becomes 5: 10, commit 11, swap 12. Skip over a load: 13.
/// Store 9 to word 0: 14, commit 15, swap 16. Halt 17, Mark 18, Release 19.
static C: Record = LazyLock::new(|| {
    notated(
        "
        load r0 w0
        set r1 9
        cam w1 r0 r1
        cam w1 r1 r0
        skip 1 if r2 = r3
        load r2 w0
        store r1 w0
        halt yes",
    )
});

/// The last turn of a lock: 2 to the 26th.
const LAST: u32 = 67_108_864;

fn engine() -> Engine {
    let mut engine = Engine::blank();
    assert_eq!(engine.setup(&S), Ok(()));
    engine
}

/// Setup S, but that lock 0 can be won only once more.
fn before_last() -> Engine {
    let mut setup = S;
    setup[21..25].copy_from_slice(&[0xFF, 0xFF, 0xFF, 3]);
    let mut engine = Engine::blank();
    assert_eq!(engine.setup(&setup), Ok(()));
    assert_eq!(engine.read_lock(0), lock(LAST - 1, Holder::Free));
    engine
}

/// Begins a job on lock 0 and makes so many steps of it.
fn begun(engine: &mut Engine, worker: u32, job: &[u8], steps: u32) {
    assert_eq!(engine.begin(worker, 0, job), Ok(()));
    for _ in 0..steps {
        assert_eq!(engine.step(worker), Ok(()));
    }
}

/// An engine in which worker 0 has made so many steps of job A.
fn with_a(steps: u32) -> Engine {
    let mut engine = engine();
    begun(&mut engine, 0, &A, steps);
    engine
}

/// Steps a worker to its end and collects: answer, steps, filled entries.
fn finished(engine: &mut Engine, worker: u32) -> (Answer, u32, u32) {
    while engine.step(worker).is_ok() {}
    let told = engine.collect(worker).expect("it has an answer");
    (told.answer, told.steps, told.filled)
}

fn alone(engine: &mut Engine, worker: u32, job: &[u8]) -> (Answer, u32, u32) {
    begun(engine, worker, job, 0);
    finished(engine, worker)
}

fn refused<T>(number: u32, place: u32) -> Result<T, Refusal> {
    Err(Refusal { number, place })
}

/// Word 0 under lock 0.
fn word(value: u32, count: u32) -> Result<Word, Refusal> {
    let guard = 0;
    Ok(Word {
        value,
        count,
        guard,
    })
}

fn lock(turn: u32, holder: Holder) -> Result<LockWord, Refusal> {
    Ok(LockWord { turn, holder })
}

#[test]
fn rows_a_and_b() {
    let mut engine = engine();
    assert_eq!(alone(&mut engine, 0, &A), (Answer::RanYes, 14, 2));
    assert_eq!(engine.read_word(0), word(6, 1));
    assert_eq!(engine.read_lock(0), lock(1, Holder::Free));
    assert_eq!(alone(&mut engine, 0, &B), (Answer::RanNo, 12, 2));
}

#[test]
fn rows_c_and_d() {
    let mut engine = with_a(10);
    assert_eq!(engine.drop_worker(0), Ok(()));
    assert_eq!(engine.read_word(0), word(5, 0));
    assert_eq!(engine.read_lock(0), lock(1, Holder::Sheet(0)));
    assert_eq!(alone(&mut engine, 1, &B), (Answer::NotTaken, 11, 0));
    assert_eq!(engine.read_word(0), word(6, 1));
    assert_eq!(engine.read_lock(0), lock(1, Holder::Free));
}

#[test]
fn row_e() {
    let mut engine = with_a(10);
    assert_eq!(alone(&mut engine, 1, &B), (Answer::NotTaken, 11, 0));
    assert_eq!(finished(&mut engine, 0), (Answer::RanYes, 14, 2));
    assert_eq!(engine.read_word(0), word(6, 1));
}

#[test]
fn row_f() {
    let mut engine = with_a(1);
    assert_eq!(engine.drop_worker(0), Ok(()));
    assert_eq!(engine.read_lock(0), lock(0, Holder::Free));
}

#[test]
fn row_g() {
    let mut engine = with_a(1);
    assert_eq!(engine.begin(1, 0, &B), Ok(()));
    assert_eq!(engine.step(1), Ok(()));
    assert_eq!(engine.step(0), Ok(()));
    assert_eq!(finished(&mut engine, 1), (Answer::NotTaken, 14, 2));
    assert_eq!(engine.read_word(0), word(6, 1));
}

#[test]
fn row_h() {
    let mut engine = with_a(2);
    assert_eq!(alone(&mut engine, 1, &B), (Answer::NotTaken, 11, 2));
    assert_eq!(finished(&mut engine, 0), (Answer::RanYes, 14, 0));
    assert_eq!(engine.read_word(0), word(6, 1));
}

#[test]
fn rows_i_and_j() {
    let mut skip_two = B.clone();
    skip_two[15] = 2;
    assert_eq!(engine().begin(0, 0, &skip_two), refused(7, 2));
    assert_eq!(engine().begin(0, 1, &A), refused(8, 0));
}

/// Worker 0 is cut off after each number of C's steps, and worker 1 fills what
/// is left of C's four entries. C alone takes 4 steps to its run, 13 in it,
/// then Mark and Release, 19; worker 1 comes to the run by Look: 16.
#[test]
fn filled_after_a_cut() {
    assert_eq!(alone(&mut engine(), 0, &C), (Answer::RanYes, 19, 4));
    for cut in 0..=19 {
        let mut engine = engine();
        begun(&mut engine, 0, &C, cut);
        assert_eq!(engine.drop_worker(0), Ok(()));
        let rest = match cut {
            2..=5 => (Answer::NotTaken, 16, 4),
            6..=8 => (Answer::NotTaken, 16, 3),
            9..=10 => (Answer::NotTaken, 16, 2),
            11..=14 => (Answer::NotTaken, 16, 1),
            15..=18 => (Answer::NotTaken, 16, 0),
            // C has not grabbed the lock yet, or has released it: B's own two.
            _ => (Answer::RanNo, 12, 2),
        };
        assert_eq!(alone(&mut engine, 1, &B), rest, "cut off after {cut}");
    }
}

/// Three workers fill C's entries: worker 0 two of them in 9 steps, worker 1
/// the third in 8 (Look, the seven steps from 5 to 11), worker 2 the last.
#[test]
fn filled_by_three() {
    let mut engine = engine();
    begun(&mut engine, 0, &C, 9);
    assert_eq!(engine.drop_worker(0), Ok(()));
    begun(&mut engine, 1, &B, 8);
    assert_eq!(alone(&mut engine, 2, &B), (Answer::NotTaken, 16, 1));
    assert_eq!(finished(&mut engine, 1), (Answer::NotTaken, 16, 1));
    assert_eq!(engine.read_word(0), word(9, 1));
}

/// Worker 0 fills the first of A's entries in 6 steps and has read for the
/// second in 9; worker 1 is the first to fill that.
#[test]
fn filled_by_owner_and_helper() {
    for steps in 6..=9 {
        let mut engine = with_a(steps);
        assert_eq!(alone(&mut engine, 1, &B), (Answer::NotTaken, 11, 1));
        assert_eq!(finished(&mut engine, 0), (Answer::RanYes, 14, 1));
    }
}

/// Worker 0 has filled both of A's entries; a refused collect tells nothing of
/// it, a drop loses it, and the next begin counts from 0.
#[test]
fn filled_and_lost() {
    let mut engine = with_a(10);
    let told = lent::collect(&mut engine.numbers, 0);
    let (number, nothing) = (3, lent::Collected::default());
    assert_eq!(told, lent::Collected { number, ..nothing });
    assert_eq!(engine.drop_worker(0), Ok(()));
    assert_eq!(alone(&mut engine, 0, &B), (Answer::NotTaken, 11, 0));
    assert_eq!(alone(&mut engine, 0, &B), (Answer::RanNo, 12, 2));
}

/// Worker 0 wins the last turn while workers 1 and 2 stand before their Look,
/// which then ends their tries. The other lock can still be won.
#[test]
fn worn() {
    let mut engine = before_last();
    begun(&mut engine, 0, &A, 0);
    begun(&mut engine, 1, &B, 0);
    begun(&mut engine, 2, &B, 0);
    assert_eq!(finished(&mut engine, 0), (Answer::RanYes, 14, 2));
    for worker in [1, 2] {
        assert_eq!(finished(&mut engine, worker), (Answer::Worn, 1, 0));
        assert_eq!(engine.read_lock(0), lock(LAST, Holder::Free));
    }
    for worker in 0..8 {
        assert_eq!(engine.begin(worker, 0, &B), refused(9, 0));
        assert_eq!(engine.begin(worker, 1, &halts(1, 1)), Ok(()));
    }
}

/// Worker 1 helps at the last turn, and its own release wears the lock: it is
/// told only that its job was not run. Worker 2 began while the lock was held,
/// which is accepted, and looks after that release.
#[test]
fn not_taken_where_the_lock_is_held_at_its_last_turn() {
    let mut engine = before_last();
    begun(&mut engine, 0, &A, 10);
    assert_eq!(engine.read_lock(0), lock(LAST, Holder::Sheet(0)));
    begun(&mut engine, 2, &B, 0);
    assert_eq!(alone(&mut engine, 1, &B), (Answer::NotTaken, 11, 0));
    assert_eq!(engine.read_lock(0), lock(LAST, Holder::Free));
    assert_eq!(engine.begin(1, 0, &B), refused(9, 0));
    assert_eq!(finished(&mut engine, 2), (Answer::Worn, 1, 0));
    assert_eq!(finished(&mut engine, 0), (Answer::RanYes, 14, 2));
    assert_eq!(engine.begin(0, 0, &A), refused(9, 0));
}

/// Worker 1 looks one turn before the last, which worker 0 then wins and gives
/// back: Grab fails, Look again sees the worn lock and Read mark ends the try.
/// Only Look tells worn.
#[test]
fn not_taken_where_the_lock_wears_after_look() {
    let mut engine = before_last();
    begun(&mut engine, 1, &B, 1);
    assert_eq!(alone(&mut engine, 0, &A), (Answer::RanYes, 14, 2));
    assert_eq!(engine.read_lock(0), lock(LAST, Holder::Free));
    assert_eq!(finished(&mut engine, 1), (Answer::NotTaken, 4, 0));
    assert_eq!(engine.begin(1, 0, &B), refused(9, 0));
}

#[test]
fn refusals_of_numbers_and_standing() {
    let mut engine = engine();
    assert_eq!(engine.begin(8, 0, &A), refused(1, 0));
    assert_eq!(engine.step(u32::MAX), refused(1, 0));
    assert_eq!(engine.collect(256), refused(1, 0));
    assert_eq!(engine.drop_worker(1 << 31), refused(1, 0));
    assert_eq!(engine.begin(0, 2, &A), refused(2, 0));
    assert_eq!(engine.read_lock(u32::MAX), refused(2, 0));
    assert_eq!(engine.read_word(3), refused(16, 0));
    assert_eq!(engine.step(0), refused(11, 0));
    assert_eq!(engine.collect(0), refused(11, 0));
    assert_eq!(engine.drop_worker(0), refused(11, 0));
    let mut engine = with_a(13);
    assert_eq!(engine.begin(0, 0, &A), refused(3, 0));
    assert_eq!(engine.collect(0), refused(3, 0));
    assert_eq!(engine.step(0), Ok(()));
    assert_eq!(engine.begin(0, 0, &A), refused(4, 0));
    assert_eq!(engine.step(0), refused(4, 0));
}

#[test]
fn refusals_of_records() {
    let mut engine = engine();
    assert_eq!(engine.begin(0, 0, &[]), refused(5, 0));
    assert_eq!(engine.begin(0, 0, &A[..23]), refused(5, 0));
    assert_eq!(engine.begin(0, 0, &S), refused(6, 0));
    let mut late = S;
    late[24] = 4;
    assert_eq!(engine.setup(&late), Ok(()));
    assert_eq!(engine.begin(0, 0, &A), refused(9, 0));
    late[21] = 1;
    assert_eq!(engine.setup(&late), refused(12, 21));
    assert_eq!(engine.setup(&A), refused(6, 0));
    assert_eq!(engine.setup(&[]), refused(5, 0));
    assert_eq!(engine.read_word(0), refused(16, 0));
}

/// Request 06: the most sheets that can be in use at a begin, 16 that the locks
/// name and two that each of 7 workers has. The begin takes the next one.
#[test]
fn thirty_sheets_in_use_at_a_begin() {
    let mut setup = [0; 75];
    setup[..6].copy_from_slice(&[75, 0, 2, 0, 16, 1]);
    let mut engine = Engine::blank();
    assert_eq!(engine.setup(&setup), Ok(()));
    let halt = halts(1, 1);
    let won = |engine: &mut Engine, lock| {
        assert_eq!(engine.begin(0, lock, &halt), Ok(()));
        assert_eq!([engine.step(0), engine.step(0)], [Ok(()); 2]);
        assert_eq!(engine.drop_worker(0), Ok(()));
    };
    // Each of the 7 sees a sheet at lock 0, which worker 0 then runs to its end.
    for worker in 1..8 {
        won(&mut engine, 0);
        begun(&mut engine, worker, &halt, 1);
        begun(&mut engine, 0, &halt, 0);
        assert_eq!(finished(&mut engine, 0), (Answer::NotTaken, 4, 0));
    }
    (0..16).for_each(|lock| won(&mut engine, lock));
    let shown = |engine: &Engine, sheet| engine.show(sheet, &mut [0; 8]).is_ok();
    assert!((0..32).all(|sheet| shown(&engine, sheet) == (sheet < 30)));
    assert_eq!(engine.begin(0, 0, &halt), Ok(()));
    assert!(shown(&engine, 30) && !shown(&engine, 31));
}

/// Kind 1 carries 1 to 32 instructions, kind 4 33 to 64; show gives the record
/// back that begin took.
#[test]
fn kinds_of_job_records() {
    for (kind, least, most) in [(1, 1, 32), (4, 33, 64)] {
        for instructions in [0, 1, 32, 33, 64, 65] {
            let (mut engine, job) = (engine(), halts(kind, instructions));
            let mut buffer = [0xA5; Engine::JOB_BYTES];
            if (least..=most).contains(&instructions) {
                assert_eq!(engine.begin(0, 0, &job), Ok(()));
                assert_eq!(engine.show(0, &mut buffer), Ok(job.len()));
                assert_eq!(buffer[..job.len()], job);
            } else {
                assert_eq!(engine.begin(0, 0, &job), refused(5, 0));
            }
        }
    }
    for kind in [0, 2, 3, 5, 255] {
        assert_eq!(engine().begin(0, 0, &halts(kind, 33)), refused(6, 0));
    }
    let mut longer = halts(4, 33);
    longer[0] += 4;
    assert_eq!(engine().begin(0, 0, &longer), refused(5, 0));
}

/// The longest run, of 63 stores: 196 steps alone; helped from its first step,
/// 193.
#[test]
fn the_longest_tries() {
    let mut job = halts(4, 64);
    job[4..]
        .chunks_exact_mut(4)
        .take(63)
        .for_each(|code| code[0] = 3);
    let mut engine = engine();
    assert_eq!(engine.begin(0, 0, &job), Ok(()));
    assert_eq!(finished(&mut engine, 0), (Answer::RanNo, 196, 63));
    assert_eq!(engine.read_word(0), word(0, 63));
    assert_eq!(engine.begin(0, 0, &job), Ok(()));
    for _ in 0..98 {
        assert_eq!(engine.step(0), Ok(()));
    }
    assert_eq!(engine.drop_worker(0), Ok(()));
    assert_eq!(engine.begin(1, 0, &A), Ok(()));
    assert_eq!(finished(&mut engine, 1), (Answer::NotTaken, 193, 32));
    assert_eq!(engine.read_word(0), word(0, 126));
}

/// What the plain engine answers, counts and leaves.
#[test]
fn jobs_run_plainly() {
    let (mut values, guards) = ([5, 9, 7], [0, 0, 1]);
    let ran = |yes, executed| Ok(Ran { yes, executed });
    assert_eq!(plain(&mut values, &guards, 0, &A), ran(true, 5));
    assert_eq!(values, [6, 9, 7]);
    assert_eq!(plain(&mut values, &guards, 0, &B), ran(false, 4));
    values[1] = 6;
    assert_eq!(plain(&mut values, &guards, 0, &B), ran(true, 4));
    assert_eq!(values, [6, 6, 7]);
    assert_eq!(plain(&mut [], &[], u32::MAX, &halts(4, 64)), ran(false, 1));
}

/// Its refusals, in their order, none of which changes a value.
#[test]
fn refusals_of_the_plain_engine() {
    let words = |values: usize, guards: usize| (vec![5; values], vec![0; guards]);
    for (values, guards) in [(2, 3), (3, 2), (0, 1), (1, 0), (65, 65), (64, 65)] {
        let (mut values, guards) = words(values, guards);
        assert_eq!(plain(&mut values, &guards, 0, &[]), refused(16, 0));
    }
    let (mut values, guards) = words(64, 64);
    for (lock, record, refusal) in [
        (0, &A[..23], refused(5, 0)),
        (0, &S[..], refused(6, 0)),
        (0, &halts(4, 32), refused(5, 0)),
        (1, &A, refused(8, 0)),
        (256, &A, refused(8, 0)),
        (0, &[8, 0, 1, 0, 8, 0, 0, 0], refused(7, 0)),
    ] {
        assert_eq!(plain(&mut values, &guards, lock, record), refusal);
    }
    assert!(values.iter().all(|&value| value == 5));
}

#[test]
fn the_writers_and_their_refusals() {
    let mut engine = with_a(1);
    let mut buffer = [0xA5; Engine::SETUP_BYTES];
    assert_eq!(engine.show(1, &mut buffer), refused(14, 0));
    assert_eq!(engine.show(32, &mut buffer), refused(14, 0));
    assert_eq!(engine.show(0, &mut buffer[..23]), refused(13, 0));
    assert_eq!(engine.park(&mut buffer[..28]), refused(13, 0));
    assert_eq!(Engine::blank().park(&mut buffer), refused(12, 4));
    assert!(buffer.iter().all(|&byte| byte == 0xA5));
    assert_eq!(engine.park(&mut buffer), Ok(29));
    assert_eq!(buffer[..29], S);
    assert_eq!(engine.show(0, &mut buffer), Ok(24));
    assert_eq!(buffer[..24], A[..]);
    assert_eq!(buffer[24..29], S[24..]);
    assert!(buffer[29..].iter().all(|&byte| byte == 0xA5));
    assert_eq!(engine.step(0), Ok(()));
    assert_eq!(engine.park(&mut buffer), refused(15, 0));
}

/// A clone goes its own way, and a refused setup gives the blank state.
#[test]
fn the_numbers_are_the_state() {
    let mut engine = with_a(10);
    let mut other = engine.clone();
    assert_eq!(finished(&mut other, 0), (Answer::RanYes, 14, 2));
    assert_eq!(engine.read_word(0), word(5, 0));
    assert_eq!(finished(&mut engine, 0), (Answer::RanYes, 14, 2));
    assert_eq!(engine.numbers, other.numbers);
    assert_eq!(engine.setup(&S[..28]), refused(5, 0));
    assert_eq!(engine.numbers, Engine::blank().numbers);
}

/// Every call with these numbers; the refusal's number and place of each.
fn all_calls(numbers: &mut [u32]) -> [(u32, u32); 9] {
    let buffer = &mut [0xA5; Engine::SETUP_BYTES];
    let setup = lent::setup(numbers, &S);
    let begin = lent::begin(numbers, 0, 0, &A);
    let step = lent::step(numbers, 0);
    let collect = lent::collect(numbers, 0);
    let drop = lent::drop(numbers, 0);
    let word = lent::read_word(numbers, 0);
    let lock = lent::read_lock(numbers, 0);
    let show = lent::show(numbers, 0, buffer);
    let park = lent::park(numbers, buffer);
    [
        (setup.number, setup.place),
        (begin.number, begin.place),
        (step.number, step.place),
        (collect.number, collect.place),
        (drop.number, drop.place),
        (word.number, word.place),
        (lock.number, lock.place),
        (show.number, show.place),
        (park.number, park.place),
    ]
}

/// The header's number is the archive's: one number fewer is refused by
/// every call, and changes nothing; exactly so many are enough, and what is
/// lent beyond them is not touched.
#[test]
fn refusal_22_of_too_few_numbers() {
    for length in [0, 1, NUMBERS / 2, NUMBERS - 1] {
        let mut numbers = vec![7; length];
        assert_eq!(all_calls(&mut numbers), [(22, 0); 9]);
        assert!(numbers.iter().all(|&number| number == 7));
    }
    for length in [NUMBERS, NUMBERS + 3] {
        let mut numbers = vec![7; length];
        let mut told = [(0, 0); 9];
        (told[3], told[7]) = ((3, 0), (14, 0));
        assert_eq!(all_calls(&mut numbers), told);
        assert!(numbers[NUMBERS..].iter().all(|&number| number == 7));
    }
}

/// Numbers that no call gave are read as some state: every call ends.
#[test]
fn forged_numbers() {
    for forged in [1, 7, 255, 1 << 16, u32::MAX] {
        let mut engine = Engine::blank();
        engine.numbers.fill(forged);
        let mut buffer = [0; Engine::SETUP_BYTES];
        for number in [0, 1, 7, 8, 31, u32::MAX] {
            let _ = engine.read_word(number).is_ok();
            let _ = engine.read_lock(number).is_ok();
            let _ = engine.show(number, &mut buffer).is_ok();
            let _ = engine.begin(number, 0, &A).is_ok();
            let _ = engine.step(number).is_ok();
            let _ = engine.collect(number).is_ok();
            let _ = engine.drop_worker(number).is_ok();
        }
        let _ = engine.park(&mut buffer).is_ok();
    }
}

#[test]
fn words_of_refusals() {
    let (number, place) = (7, 2);
    let told = Refusal { number, place }.to_string();
    let said = "refused 7 at place 2: instruction badly formed, or the last is no halt";
    assert_eq!(told, said);
    let words = |number| Refusal { number, place: 0 }.words();
    assert_eq!(words(11), "worker idle");
    assert_eq!(words(17), "a record that makes no call");
    assert_eq!(words(99), "a refusal that this text doesn't know");
}

/// The record of a call, byte by byte; the program is that of a begin.
fn record(call: u8, worker: u8, lock: u8, program: &[u8]) -> Vec<u8> {
    let [low, high] = (8 + program.len() as u16).to_le_bytes();
    [&[low, high, 3, 0, call, worker, lock, 0], program].concat()
}

/// What the writer makes of a call in a buffer of so many bytes, which all
/// are A5 before; the whole buffer after it.
fn written(call: u32, numbers: [u32; 2], job: &[u8], room: usize) -> (lent::Wrote, Vec<u8>) {
    let mut buffer = vec![0xA5; room];
    let [worker, lock] = numbers;
    let told = lent::record(call, worker, lock, job, &mut buffer);
    (told, buffer)
}

/// The writer is accepted, in a buffer of just its size and in one with
/// bytes to spare, which stay.
fn writes(call: u32, numbers: [u32; 2], job: &[u8], record: &[u8]) {
    for spare in [0, 1, 50] {
        let (told, buffer) = written(call, numbers, job, record.len() + spare);
        assert_eq!((told.number, told.place), (0, 0));
        assert_eq!(told.length as usize, record.len());
        assert_eq!(buffer[..record.len()], *record);
        assert!(buffer[record.len()..].iter().all(|&byte| byte == 0xA5));
    }
}

/// The writer is refused so, at place 0, and alters no byte.
fn writes_none(call: u32, job: &[u8], room: usize, number: u32) {
    let (told, buffer) = written(call, [0, 0], job, room);
    assert_eq!((told.number, told.place, told.length), (number, 0, 0));
    assert!(buffer.iter().all(|&byte| byte == 0xA5));
}

/// A job record of so many instructions, all of which halt.
fn halts(kind: u8, instructions: usize) -> Vec<u8> {
    let mut job = vec![0; 4 + 4 * instructions];
    let [low, high] = (job.len() as u16).to_le_bytes();
    (job[0], job[1], job[2]) = (low, high, kind);
    job
}

#[test]
fn records_of_calls() {
    writes(lent::BEGIN, [3, 1], &A, &record(0, 3, 1, &A[4..]));
    // A step, collect or drop has no lock and no job.
    for (lock, job) in [(0, &[][..]), (9, &A), (u32::MAX, &S)] {
        writes(lent::STEP, [3, lock], job, &record(1, 3, 0, &[]));
        writes(lent::COLLECT, [7, lock], job, &record(2, 7, 0, &[]));
        writes(lent::DROP, [0, lock], job, &record(3, 0, 0, &[]));
    }
    // What doesn't fit its byte is written as 255.
    for far in [255, 256, 263, 65_536, u32::MAX] {
        writes(lent::BEGIN, [far, 1], &A, &record(0, 255, 1, &A[4..]));
        writes(lent::BEGIN, [1, far], &A, &record(0, 1, 255, &A[4..]));
        writes(lent::STEP, [far, 0], &[], &record(1, 255, 0, &[]));
    }
    // The record of a begin does not say the job record's kind.
    for job in [halts(1, 1), halts(1, 32), halts(4, 33), halts(4, 64)] {
        writes(lent::BEGIN, [0, 0], &job, &record(0, 0, 0, &job[4..]));
    }
    assert_eq!(
        record(0, 0, 0, &halts(4, 64)[4..]).len(),
        Engine::CALL_BYTES
    );
}

#[test]
fn refusals_of_records_of_calls() {
    for call in [4, 255, 256, u32::MAX] {
        writes_none(call, &A, Engine::CALL_BYTES, 17);
        writes_none(call, &A[..23], 0, 17);
    }
    for room in [0, Engine::CALL_BYTES] {
        for job in [&[][..], &A[..23], &[5, 0, 1, 0, 0]] {
            writes_none(lent::BEGIN, job, room, 5);
        }
        for (kind, counts) in [(1, [0, 33, 64, 65]), (4, [0, 1, 32, 65])] {
            for instructions in counts {
                writes_none(lent::BEGIN, &halts(kind, instructions), room, 5);
            }
        }
        writes_none(lent::BEGIN, &S, room, 6);
        writes_none(lent::BEGIN, &halts(5, 33), room, 6);
    }
    writes_none(lent::BEGIN, &A, 27, 13);
    writes_none(lent::BEGIN, &halts(4, 64), Engine::CALL_BYTES - 1, 13);
    for call in [lent::STEP, lent::COLLECT, lent::DROP] {
        writes_none(call, &A, 7, 13);
        writes_none(call, &[], 0, 13);
    }
}

/// Each call tells what the engine's own tells, and its record, where it has
/// one, is handed out before.
#[test]
fn calls_that_are_recorded() {
    let handed = RefCell::new(Vec::new());
    let (mut engine, mut plain) = (Engine::blank(), Engine::blank());
    let mut recorder = Recorder::new(&mut engine, |record| {
        handed.borrow_mut().push(record.to_vec());
    });
    let next = || std::mem::take(&mut *handed.borrow_mut());
    assert_eq!(recorder.setup(&S), plain.setup(&S));
    assert_eq!(next(), [S.to_vec()]);
    let begun = record(0, 0, 0, &A[4..]);
    for _ in 0..2 {
        // The second one is refused: the worker is under way.
        assert_eq!(recorder.begin(0, 0, &A), plain.begin(0, 0, &A));
        assert_eq!(next(), [&begun[..]]);
    }
    for _ in 0..15 {
        assert_eq!(recorder.step(0), plain.step(0));
        assert_eq!(next(), [record(1, 0, 0, &[])]);
    }
    for worker in [0, 0, 300] {
        let byte = worker.min(255) as u8;
        assert_eq!(recorder.collect(worker), plain.collect(worker));
        assert_eq!(next(), [record(2, byte, 0, &[])]);
        assert_eq!(recorder.drop_worker(worker), plain.drop_worker(worker));
        assert_eq!(next(), [record(3, byte, 0, &[])]);
    }
    assert_eq!(recorder.engine().read_word(0), word(6, 1));
    assert_eq!(engine.numbers, plain.numbers);
}

/// What leaves no record: bytes that are no job record, a refused setup, and
/// the calls on the blank state.
#[test]
fn calls_without_a_record() {
    let handed = RefCell::new(Vec::new());
    let mut engine = engine();
    let mut recorder = Recorder::new(&mut engine, |record| {
        handed.borrow_mut().extend_from_slice(record);
    });
    assert_eq!(recorder.begin(0, 0, &A[..23]), refused(5, 0));
    assert_eq!(recorder.begin(0, 0, &S), refused(6, 0));
    assert_eq!(recorder.begin(8, 0, &S), refused(1, 0));
    assert_eq!(recorder.setup(&A), refused(6, 0));
    assert_eq!(recorder.begin(0, 0, &A), refused(2, 0));
    assert_eq!(recorder.step(0), refused(11, 0));
    assert_eq!(*handed.borrow(), []);
    assert_eq!(recorder.setup(&S), Ok(()));
    assert_eq!(recorder.step(0), refused(11, 0));
    assert_eq!(*handed.borrow(), [&S[..], &record(1, 0, 0, &[])].concat());
}
