//! Longer jobs (request 04): the records of kinds 1 and 4 and the order of
//! their refusals, show, and what the old writer says.

mod common;
use common::{bytes, job, job_of_kind, numbers, repeated, setup, A, HALT, S};
use second::engine::Engine;
use second::generate;
use second::job::{program, JobKind, NOW, OLD};
use second::script::{self, Call};

const BAD: [u8; 4] = [8, 0, 0, 0];

/// An engine set up with S.
fn engine() -> Engine {
    let mut engine = Engine::blank();
    engine.setup(&bytes(S)).unwrap();
    engine
}

/// What begin says to a job record under lock 0 of S.
fn begun(record: &[u8]) -> (u32, u32) {
    numbers(engine().begin(0, 0, record))
}

/// A record of this kind and of so many halts.
fn halts(kind: u16, count: usize) -> Vec<u8> {
    job_of_kind(kind, &vec![HALT; count])
}

/// The bounds are the request's.
#[test]
fn the_numbers() {
    assert_eq!(Engine::INSTRUCTIONS, 64);
    assert_eq!(Engine::LONGEST_RUN, 190);
    assert_eq!(Engine::LONGEST_HELP, 193);
    assert_eq!(Engine::LONGEST_TRY, 196);
}

/// None, 32, 33, 64 and 65 instructions under each kind.
#[test]
fn counts_under_each_kind() {
    let told = |kind: u16| [0, 32, 33, 64, 65].map(|count| begun(&halts(kind, count)));
    assert_eq!(told(1), [(5, 0), (0, 0), (5, 0), (5, 0), (5, 0)]);
    assert_eq!(told(4), [(5, 0), (5, 0), (0, 0), (0, 0), (5, 0)]);
    assert_eq!(told(2), [(6, 0); 5]);
}

/// Every count up to a record of 1,004 bytes; also kinds whose low byte or
/// whose high byte alone is that of a job.
#[test]
fn every_count_under_many_kinds() {
    for count in 0..=250 {
        let of_5 = |refused: bool| (if refused { 5 } else { 0 }, 0);
        let (short, long) = ((1..=32).contains(&count), (33..=64).contains(&count));
        assert_eq!(begun(&halts(1, count)), of_5(!short), "{count}");
        assert_eq!(begun(&halts(4, count)), of_5(!long), "{count}");
        for kind in [0, 2, 3, 5, 6, 255, 256, 257, 260, 1024, 1025, 65_535] {
            assert_eq!(begun(&halts(kind, count)), (6, 0), "{kind} {count}");
        }
    }
}

/// The length field, then the kind, then the count, then the instructions.
#[test]
fn the_order() {
    for count in [0, 1, 32, 33, 64, 65] {
        for kind in [0, 1, 2, 4, 5] {
            // Every instruction is bad, and the length field is wrong.
            let record = job_of_kind(kind, &vec![BAD; count]);
            for place in [0, 1] {
                for bit in 0..8 {
                    let mut wrong = record.clone();
                    wrong[place] ^= 1 << bit;
                    assert_eq!(begun(&wrong), (5, 0));
                }
            }
            // Just the instructions are bad, or there is more before them.
            let told = match (kind, count) {
                (1, 1 | 32) | (4, 33 | 64) => (7, 0),
                (1 | 4, _) => (5, 0),
                _ => (6, 0),
            };
            assert_eq!(begun(&record), told, "kind {kind}, {count}");
        }
    }
}

/// Fewer than 4 bytes, bytes too few for the length field, and no whole
/// number of instructions.
#[test]
fn lengths_of_kind_4() {
    let good = halts(4, 33);
    for length in 0..good.len() {
        assert_eq!(begun(&good[..length]), (5, 0));
    }
    for length in (132..=264u16).filter(|length| length % 4 != 0) {
        let mut record = vec![0; usize::from(length)];
        record[..2].copy_from_slice(&length.to_le_bytes());
        record[2] = 4;
        assert_eq!(begun(&record), (5, 0), "{length}");
        record[2] = 5;
        assert_eq!(begun(&record), (6, 0), "{length}");
    }
    // A length that does not fit its field, though the rest of it is right.
    let mut long = vec![0; 65_536 + 260];
    long[..4].copy_from_slice(&[4, 1, 4, 0]);
    assert_eq!(begun(&long), (5, 0));
}

/// Faulty instructions at every place of the longest job.
#[test]
fn faults_at_every_place() {
    for place in 0..64 {
        let at = |instruction: [u8; 4]| {
            let mut program = repeated([3, 0, 1, 0], 64);
            program[place] = instruction;
            begun(&job(&program))
        };
        let no = |number: u32| (number, place as u32);
        let last = place == 63;
        assert_eq!(at(BAD), no(7));
        assert_eq!(at(HALT), (0, 0));
        // Word 2 is under the other lock, and there is no word 3.
        for word in [2, 3] {
            assert_eq!(at([2, 0, word, 0]), no(if last { 7 } else { 8 }));
            assert_eq!(at([4, 0, 0, word]), no(if last { 7 } else { 8 }));
        }
        // A skip up to the halt, and one past it.
        let over = 62 - place as i32;
        if over > 0 {
            assert_eq!(at([7, 0, 0, over as u8]), (0, 0));
        }
        assert_eq!(at([7, 0, 0, (over + 1).max(0) as u8]), no(7));
    }
}

/// A skip over all that stands between, which is not run: after the first
/// four steps come the skip, the halt, mark and release.
#[test]
fn the_longest_skip() {
    let mut program = repeated([3, 1, 0, 0], 64);
    program[0] = [7, 0, 0, 62];
    let mut engine = engine();
    engine.begin(0, 0, &job(&program)).unwrap();
    while engine.step(0).is_ok() {}
    assert_eq!(engine.collect(0).unwrap().steps, 8);
    assert_eq!(engine.read_word(0).unwrap().value, 5);
}

/// Show gives the record back that begin took, of every count, with the kind
/// that the count picks and a length of two bytes.
#[test]
fn shown_as_begun() {
    for count in 1..=64 {
        let program: Vec<[u8; 4]> = (1..count as u8).map(|byte| [1, 3, byte, !byte]).collect();
        let program = [program, vec![[0, 1, 0, 0]]].concat();
        let record = job(&program);
        assert_eq!(record[2], if count <= 32 { 1 } else { 4 });
        let length = record.len();
        assert_eq!(length, 4 + 4 * count);
        let mut engine = engine();
        engine.begin(0, 0, &record).unwrap();
        for spare in [0, 1, 200] {
            let mut buffer = vec![0xA5; length + spare];
            assert_eq!(engine.show(0, &mut buffer), Ok(length));
            assert_eq!(buffer[..length], record);
            assert!(buffer[length..].iter().all(|&byte| byte == 0xA5));
        }
        let mut short = vec![0xA5; length - 1];
        assert_eq!(numbers(engine.show(0, &mut short)), (13, 0));
        assert!(short.iter().all(|&byte| byte == 0xA5));
    }
    assert_eq!(halts(4, 64)[..4], [4, 1, 4, 0]);
}

/// A sheet that had a job of 64 and gets one of 1, and the other way round:
/// nothing of the other job is left.
#[test]
fn sheets_that_are_taken_again() {
    let store = |count| job(&repeated([3, 0, 0, 0], count));
    let mut engine = engine();
    for (turn, count) in [64, 1, 33, 32, 64].into_iter().enumerate() {
        engine.begin(0, 0, &store(count)).unwrap();
        let mut shown = vec![0; 4 + 4 * count];
        assert_eq!(engine.show(0, &mut shown), Ok(shown.len()));
        assert_eq!(shown, store(count));
        while engine.step(0).is_ok() {}
        let told = engine.collect(0).unwrap();
        let changes = count as u32 - 1;
        assert_eq!(told.filled, changes);
        assert_eq!(told.steps, 4 + 3 * changes + 1 + 2);
        assert_eq!(engine.read_lock(0).unwrap().turn, 1 + turn as u32);
    }
    assert_eq!(engine.read_word(0).unwrap().count, 63 + 32 + 31 + 63);
}

/// The old writer refuses kind 4 with 6, whatever else is in the record, where
/// its length field is right; with 5 where it isn't, as every record.
#[test]
fn the_old_writer_refuses_kind_4() {
    for length in 4..=600u16 {
        for byte in [0, 3, 255] {
            let mut record = vec![byte; usize::from(length)];
            record[..2].copy_from_slice(&length.to_le_bytes());
            record[2..4].copy_from_slice(&[4, 0]);
            assert_eq!(numbers(program(&record, OLD)), (6, 0), "{length}");
            for short in 0..4 {
                assert_eq!(numbers(program(&record[..short], OLD)), (5, 0));
            }
            record[0] ^= 4;
            assert_eq!(numbers(program(&record, OLD)), (5, 0), "{length}");
        }
    }
    // Every one that is taken now is among them.
    for count in 33..=64 {
        let record = halts(4, count);
        assert_eq!(numbers(program(&record, NOW)), (0, 0));
        assert_eq!(numbers(program(&record, OLD)), (6, 0));
    }
}

/// What the old writer takes is taken now, as the same program; what it
/// refuses is refused now with the same number, but for kind 4.
fn old_and_now(record: &[u8]) {
    let (old, now) = (program(record, OLD), program(record, NOW));
    let of_kind_4 = record.get(2..4) == Some(&[4, 0]);
    if numbers(old).0 == 6 && of_kind_4 {
        assert_ne!(numbers(now).0, 6, "{record:?}");
    } else {
        assert_eq!(old, now, "{record:?}");
    }
}

#[test]
fn stored_jobs_stay_readable() {
    for count in 0..=70 {
        for kind in [0, 1, 2, 3, 4, 5, 260] {
            old_and_now(&halts(kind, count));
        }
    }
    for count in 1..=32 {
        let record = halts(1, count);
        assert_eq!(program(&record, OLD), Ok(&[HALT; 32][..count]));
        assert_eq!(program(&record, NOW), Ok(&[HALT; 32][..count]));
    }
    let a = bytes(A);
    assert_eq!(program(&a, OLD).unwrap().concat(), a[4..]);
}

/// The records of the begins in random scripts.
fn random_jobs() -> Vec<Vec<u8>> {
    let mut jobs = Vec::new();
    for seed in 0..500 {
        let text = generate::history(seed);
        for line in script::lines(&text) {
            if let Some(Call::Begin { record, .. }) = script::parse(line) {
                jobs.push(record);
            }
        }
    }
    jobs
}

/// Kinds that are allowed wrongly, each told from the right ones by some
/// random job.
#[test]
fn random_jobs_tell_wrong_kinds() {
    let jobs = random_jobs();
    jobs.iter().for_each(|record| old_and_now(record));
    let kind = |number, counts| JobKind { number, counts };
    let short = kind(1, 1..=32);
    let long = kind(4, 33..=64);
    let wrong = [
        ("the old one", vec![short.clone()]),
        ("kind 4 alone", vec![long.clone()]),
        ("kind 1 of none", vec![kind(1, 0..=32), long.clone()]),
        ("kind 1 of 33", vec![kind(1, 1..=33), long.clone()]),
        ("kind 1 of 64", vec![kind(1, 1..=64), long.clone()]),
        ("no kind 1 of 32", vec![kind(1, 1..=31), long.clone()]),
        ("kind 4 of none", vec![short.clone(), kind(4, 0..=64)]),
        ("kind 4 of 32", vec![short.clone(), kind(4, 32..=64)]),
        ("kind 4 of 65", vec![short.clone(), kind(4, 33..=65)]),
        ("no kind 4 of 33", vec![short.clone(), kind(4, 34..=64)]),
        ("no kind 4 of 64", vec![short.clone(), kind(4, 33..=63)]),
        ("kind 0", vec![short.clone(), long.clone(), kind(0, 1..=64)]),
        ("kind 2", vec![short.clone(), long.clone(), kind(2, 1..=64)]),
        ("kind 3", vec![short.clone(), long.clone(), kind(3, 1..=64)]),
        ("kind 5", vec![short, long, kind(5, 1..=64)]),
    ];
    for (name, kinds) in wrong {
        let apart = |record: &&Vec<u8>| program(record, &kinds) != program(record, NOW);
        let told = jobs.iter().filter(apart).count();
        println!("{name}: {told} of {}", jobs.len());
        assert!(told > 0, "{name} is not noticed");
    }
}

/// The right engine with a job of each kind held at once: the logs of 63
/// entries do not meet.
#[test]
fn logs_side_by_side() {
    let guards: Vec<u8> = (0..16).collect();
    let mut engine = Engine::blank();
    engine.setup(&setup(&guards, &[7; 16], &[0; 16])).unwrap();
    for lock in 0..16 {
        let record = job(&repeated([3, 0, lock as u8, 0], 64));
        engine.begin(0, lock, &record).unwrap();
        // Its last swap is done, and no more.
        for _ in 0..4 + 63 * 3 {
            engine.step(0).unwrap();
        }
        engine.drop_worker(0).unwrap();
        assert_eq!(engine.filled(lock as usize), (1 << 63) - 1);
        assert_eq!(engine.read_word(lock).unwrap().count, 63);
    }
    for lock in 0..16 {
        engine.begin(1, lock, &job(&[HALT])).unwrap();
        while engine.step(1).is_ok() {}
        let told = engine.collect(1).unwrap();
        assert_eq!((told.steps, told.filled), (193, 0));
        assert_eq!(engine.read_word(lock).unwrap().count, 63);
    }
}
