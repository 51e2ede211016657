//! Call files: what a walk writes, what ends it, and the records of calls.

mod common;
use common::{bytes, job, job_of_kind, repeated, setup, A, B, S};
use second::engine::{Engine, Standing};
use second::files::{call_record, run, walk, Ended, Walked};
use second::generate::{Generator, Kind};
use second::script::{perform, Call, Told};

const HALT: [u8; 4] = [0, 0, 0, 0];

/// A call record, byte by byte; the program is that of a begin.
fn record(call: u8, worker: u8, lock: u8, program: &[u8]) -> Vec<u8> {
    let [low, high] = (8 + program.len() as u16).to_le_bytes();
    let mut record = vec![low, high, 3, 0, call, worker, lock, 0];
    record.extend(program);
    record
}

/// The record of a begin under lock 0 of a job record in hexadecimal.
fn begin(worker: u8, job: &str) -> Vec<u8> {
    record(0, worker, 0, &bytes(job)[4..])
}

/// So many steps of a worker.
fn steps(worker: u8, times: usize) -> Vec<u8> {
    record(1, worker, 0, &[]).repeat(times)
}

fn collect(worker: u8) -> Vec<u8> {
    record(2, worker, 0, &[])
}

fn drop_worker(worker: u8) -> Vec<u8> {
    record(3, worker, 0, &[])
}

/// A file of S and these records.
fn after_s(records: &[Vec<u8>]) -> Vec<u8> {
    [bytes(S), records.concat()].concat()
}

/// Each line but for its index, which is the line's.
fn told(file: &[u8]) -> Vec<String> {
    let lines = run(file);
    let told = lines.lines().enumerate().map(|(index, line)| {
        let (first, rest) = line.split_once(' ').expect(line);
        assert_eq!(first, index.to_string(), "{line}");
        rest.to_string()
    });
    told.collect()
}

#[test]
fn the_request_s_example() {
    let mut file = bytes(S);
    file.extend([0x08, 0x00, 0x03, 0x00, 0x02, 0x00, 0x00, 0x00]);
    assert_eq!(run(&file), "0 11 0 0\n");
}

#[test]
fn no_record_after_the_setup() {
    let walked = walk(&bytes(S));
    assert_eq!(walked.lines, "");
    assert_eq!(walked.ended, Ended::Whole);
}

/// Rows c and d of the table: a try that is dropped and one that helps it,
/// then the helper's second try.
#[test]
fn a_dropped_try_and_its_helper() {
    let file = after_s(&[
        begin(0, A),
        steps(0, 10),
        drop_worker(0),
        begin(1, B),
        steps(1, 11),
        collect(1),
        begin(1, B),
        steps(1, 12),
        collect(1),
    ]);
    let mut wanted = vec!["0 0 0"; 39];
    wanted[24] = "0 3 11 0";
    wanted[38] = "0 2 12 2";
    assert_eq!(told(&file), wanted);
    let engine = walk(&file).engine;
    assert_eq!(engine.read_word(0).unwrap().value, 6);
    assert_eq!(engine.read_lock(0).unwrap().turn, 2);
}

/// A helper fills the first entry of A's log, the owner the second: an
/// accepted collect has a fifth number. A drop tells nothing of it.
#[test]
fn a_shared_log() {
    let file = |last: fn(u8) -> Vec<u8>| {
        after_s(&[
            begin(0, A),
            steps(0, 2),
            begin(1, B),
            steps(1, 3),
            steps(0, 12),
            steps(1, 8),
            collect(0),
            last(1),
            collect(1),
        ])
    };
    let mut wanted = vec!["0 0 0"; 30];
    wanted[27] = "0 1 14 1";
    wanted[28] = "0 3 11 1";
    wanted[29] = "11 0 0";
    assert_eq!(told(&file(collect)), wanted);
    wanted[28] = "0 0 0";
    assert_eq!(told(&file(drop_worker)), wanted);
}

/// Worker 0 takes the last turn; worker 1 looks after that, and its line has
/// answer 4.
#[test]
fn a_worn_lock() {
    let late = setup(&[0, 0, 1], &[5, 9, 7], &[67_108_863, 0]);
    let calls = [
        begin(0, A),
        begin(1, B),
        steps(0, 14),
        steps(1, 1),
        collect(0),
        collect(1),
        begin(1, B),
    ];
    let mut wanted = vec!["0 0 0"; 20];
    wanted[17] = "0 1 14 2";
    wanted[18] = "0 4 1 0";
    wanted[19] = "9 0 0";
    assert_eq!(told(&[late, calls.concat()].concat()), wanted);
}

/// Each refusal that a call of a file can get, and the walk goes on.
#[test]
fn refusals_of_calls_do_not_end_the_walk() {
    let late = setup(&[0, 0, 1], &[5, 9, 7], &[0, 67_108_864]);
    let foreign = [2, 0, 2, 0, 0, 0, 0, 0];
    let before = [
        (steps(8, 1), "1 0 0"),
        (record(0, 255, 255, &HALT), "1 0 0"),
        (record(0, 7, 2, &HALT), "2 0 0"),
        (record(0, 7, 255, &[8; 4]), "2 0 0"),
        (record(0, 0, 0, &[8, 0, 0, 0]), "7 0 0"),
        (record(0, 0, 0, &foreign), "8 0 0"),
        (record(0, 0, 1, &HALT), "9 0 0"),
        (steps(0, 1), "11 0 0"),
        (record(0, 0, 0, &HALT), "0 0 0"),
        (record(0, 0, 255, &HALT), "3 0 0"),
        (collect(0), "3 0 0"),
    ];
    let whole_try = vec![(steps(0, 1), "0 0 0"); 7];
    let after = [
        (steps(0, 1), "4 0 0"),
        (record(0, 0, 0, &HALT), "4 0 0"),
        (collect(255), "1 0 0"),
        (collect(0), "0 2 7 0"),
        (collect(0), "11 0 0"),
        (drop_worker(0), "11 0 0"),
        (drop_worker(128), "1 0 0"),
    ];
    let rows = before.into_iter().chain(whole_try).chain(after);
    let (records, lines): (Vec<_>, Vec<_>) = rows.unzip();
    assert_eq!(told(&[late, records.concat()].concat()), lines);
}

/// A begin has 1 to 64 instructions, and the engine gets just these, in a
/// record of kind 1 up to 32, of kind 4 above.
#[test]
fn a_begin_s_instructions() {
    for length in 1..=64 {
        let file = after_s(&[record(0, 3, 1, &HALT.repeat(length))]);
        assert_eq!(run(&file), "0 0 0 0\n");
        let mut shown = [0; 260];
        let count = walk(&file).engine.show(0, &mut shown).unwrap();
        assert_eq!(shown[..count], job(&vec![HALT; length]));
    }
    for length in [0, 65, 66, 128] {
        let file = after_s(&[record(0, 3, 1, &HALT.repeat(length)), steps(3, 1)]);
        assert_eq!(run(&file), "0 17 0 0\n");
    }
}

/// The longest job is cut off after 32 of its 63 stores, and helped to its
/// end; its helper's second try is a longest one too.
#[test]
fn the_longest_job_and_its_helper() {
    let longest = |worker| record(0, worker, 0, &repeated([3, 0, 1, 0], 64).concat());
    assert_eq!(longest(0)[..2], [8, 1]);
    let file = after_s(&[
        longest(0),
        steps(0, 100),
        drop_worker(0),
        longest(1),
        steps(1, 193),
        collect(1),
        longest(1),
        steps(1, 196),
        collect(1),
    ]);
    let mut wanted = vec!["0 0 0"; 495];
    wanted[296] = "0 3 193 31";
    wanted[494] = "0 2 196 63";
    assert_eq!(told(&file), wanted);
    assert_eq!(walk(&file).engine.read_word(1).unwrap().count, 126);
}

/// What a walk gives of a file whose setup is this one, with a call after it.
fn walked_after(setup: &[u8]) -> Walked {
    walk(&[setup, &collect(0)].concat())
}

/// A walk that was ended by its setup, with one number and nothing else.
fn ended_by_setup(walked: &Walked, ended: Ended, number: u32) {
    assert_eq!(walked.ended, ended);
    assert_eq!(walked.lines, format!("{number}\n"));
    assert_eq!(walked.engine, Engine::blank());
    assert_eq!(walked.place, 0);
}

#[test]
fn a_setup_cut_short() {
    let s = bytes(S);
    for length in 0..s.len() {
        ended_by_setup(&walk(&s[..length]), Ended::CutSetup, 5);
    }
    // What its other bytes are is not looked at.
    for (place, byte) in [(1, 1), (1, 255), (2, 9), (4, 0), (5, 65), (6, 2)] {
        let mut cut = s.clone();
        cut[place] = byte;
        cut.pop();
        ended_by_setup(&walk(&cut), Ended::CutSetup, 5);
    }
}

/// A length field below 4, fewer than 6 bytes, another total.
#[test]
fn setups_refused_by_5() {
    let s = bytes(S);
    for field in 0..29 {
        let mut shorter = s.clone();
        shorter[0] = field;
        ended_by_setup(&walked_after(&shorter), Ended::Setup(5), 5);
    }
    ended_by_setup(&walk(&[0, 0]), Ended::Setup(5), 5);
    ended_by_setup(&walk(&[2, 0]), Ended::Setup(5), 5);
    let mut longer = s.clone();
    longer[0] += 4;
    ended_by_setup(&walked_after(&longer), Ended::Setup(5), 5);
    let mut more_words = s;
    more_words[5] = 4;
    ended_by_setup(&walked_after(&more_words), Ended::Setup(5), 5);
}

#[test]
fn setups_refused_by_6_and_12() {
    let s = bytes(S);
    let with = |place: usize, byte: u8| {
        let mut record = s.clone();
        record[place] = byte;
        walked_after(&record)
    };
    for (place, byte) in [(2, 0), (2, 1), (2, 3), (3, 1)] {
        ended_by_setup(&with(place, byte), Ended::Setup(6), 6);
    }
    // L, W, each guard, and each turn.
    let of_12 = [
        (4, 0),
        (4, 17),
        (5, 0),
        (5, 65),
        (6, 2),
        (8, 2),
        (24, 5),
        (28, 255),
    ];
    for (place, byte) in of_12 {
        ended_by_setup(&with(place, byte), Ended::Setup(12), 12);
    }
    // L and W come before the total.
    let no_words = [6, 0, 2, 0, 1, 0];
    ended_by_setup(&walked_after(&no_words), Ended::Setup(12), 12);
}

/// Walks S, a begin, three steps, this record and one more; the record ends
/// the walk after its line, and leaves the state after the calls before it.
fn ended_by_record(record: &[u8], number: u32) {
    let good = after_s(&[begin(0, A), steps(0, 3)]);
    let before = walk(&good);
    assert_eq!(before.lines, "0 0 0 0\n1 0 0 0\n2 0 0 0\n3 0 0 0\n");
    let walked = walk(&[&good, record].concat());
    let lines = format!("{}4 {number} 0 0\n", before.lines);
    assert_eq!(walked.lines, lines, "{record:?}");
    assert_eq!(walked.ended, Ended::Record(number));
    assert_eq!(walked.engine, before.engine);
    assert_eq!(walked.place, good.len());
}

/// The same with a good record after it, which is not reached.
fn ended_before_others(record: &[u8], number: u32) {
    ended_by_record(record, number);
    ended_by_record(&[record, &steps(0, 20)].concat(), number);
}

/// A record with some of its bytes changed.
fn changed(record: &[u8], changes: &[(usize, u8)]) -> Vec<u8> {
    let mut record = record.to_vec();
    for &(place, byte) in changes {
        record[place] = byte;
    }
    record
}

/// So many bytes of a record, and its length field says so.
fn resized(record: &[u8], length: usize) -> Vec<u8> {
    let mut record = record.to_vec();
    record.resize(length, 0);
    changed(&record, &[(0, length as u8), (1, (length >> 8) as u8)])
}

#[test]
fn records_refused_by_5() {
    let halt = record(0, 1, 0, &HALT);
    for whole in [steps(0, 1), halt] {
        for length in 1..whole.len() {
            ended_by_record(&whole[..length], 5);
        }
        for field in 0..4 {
            // Before the kind, and before what 17 is for.
            ended_before_others(&changed(&whole, &[(0, field)]), 5);
            ended_before_others(&changed(&whole, &[(0, field), (2, 2), (4, 9)]), 5);
        }
        for high in [1, 255] {
            ended_by_record(&changed(&whole, &[(1, high)]), 5);
            ended_by_record(&changed(&whole, &[(1, high), (2, 2), (4, 9)]), 5);
        }
    }
    ended_by_record(&[0, 0], 5);
    ended_by_record(&[3, 0, 3], 5);
}

#[test]
fn records_refused_by_6() {
    for (place, byte) in [(2, 0), (2, 1), (2, 2), (2, 4), (2, 255), (3, 1), (3, 255)] {
        for length in (4..14).chain([140, 264, 268]) {
            let other_kind = changed(&resized(&steps(0, 1), length), &[(place, byte)]);
            ended_before_others(&other_kind, 6);
        }
        // Before what 17 is for.
        let more = changed(&steps(0, 1), &[(place, byte), (4, 4), (6, 1), (7, 1)]);
        ended_before_others(&more, 6);
    }
    // A setup and a job are no calls.
    ended_before_others(&bytes(S), 6);
    ended_before_others(&bytes(A), 6);
}

#[test]
fn records_refused_by_17() {
    let of = |call: u8| record(call, 1, 0, &[]);
    for length in 4..8 {
        ended_before_others(&resized(&of(1), length), 17);
    }
    for call in [4, 5, 128, 255] {
        ended_before_others(&of(call), 17);
        ended_before_others(&record(call, 1, 0, &HALT), 17);
    }
    for call in 1..4 {
        for byte in [1, 255] {
            ended_before_others(&changed(&of(call), &[(6, byte)]), 17);
            ended_before_others(&changed(&of(call), &[(7, byte)]), 17);
        }
        for length in [9, 10, 11, 12, 136, 140, 264, 268] {
            ended_before_others(&resized(&of(call), length), 17);
        }
    }
    // A begin: none, 65 and more, and no whole number of instructions.
    let parts = (8..264).filter(|length| length % 4 != 0);
    for length in parts.chain([8, 265, 266, 267, 268, 272, 520, 1_028]) {
        ended_before_others(&resized(&of(0), length), 17);
    }
    let halt = record(0, 1, 0, &HALT);
    ended_before_others(&changed(&halt, &[(7, 1)]), 17);
}

/// A record that ends the walk right after the setup has index 0.
#[test]
fn the_first_record_ends_the_walk() {
    assert_eq!(run(&after_s(&[vec![8]])), "0 5 0 0\n");
    assert_eq!(run(&after_s(&[bytes(A)])), "0 6 0 0\n");
    assert_eq!(run(&after_s(&[record(4, 0, 0, &[])])), "0 17 0 0\n");
}

/// 65,536 bytes are walked; one more, and nothing in them is looked at.
#[test]
fn the_longest_file() {
    let good = setup(&[0, 0], &[5, 9], &[0]);
    let calls = [steps(7, 8_188), record(0, 7, 0, &HALT)].concat();
    let mut file = [good, calls].concat();
    assert_eq!(file.len(), 65_536);
    let walked = walk(&file);
    assert_eq!(walked.ended, Ended::Whole);
    assert!(walked.lines.starts_with("0 11 0 0\n1 11 0 0\n"));
    assert!(walked.lines.ends_with("\n8187 11 0 0\n8188 0 0 0\n"));
    assert_eq!(walked.engine.standing(7), Standing::UnderWay);
    let mut refused = changed(&file, &[(4, 0)]);
    assert_eq!(run(&refused), "12\n");
    for bytes in [&mut file, &mut refused] {
        bytes.push(8);
        ended_by_setup(&walk(bytes), Ended::TooLong, 5);
        bytes.resize(200_000, 0);
        ended_by_setup(&walk(bytes), Ended::TooLong, 5);
    }
}

#[test]
fn the_record_of_a_call() {
    let (worker, lock) = (3, 9);
    let record_of = |record: Vec<u8>, worker, lock| {
        call_record(&Call::Begin {
            worker,
            lock,
            record,
        })
    };
    let a = bytes(A);
    assert_eq!(
        record_of(a.clone(), worker, lock),
        Some(record(0, 3, 9, &a[4..]))
    );
    let step = Call::Step { worker, times: 1 };
    assert_eq!(call_record(&step), Some(record(1, 3, 0, &[])));
    assert_eq!(call_record(&Call::Collect(3)), Some(record(2, 3, 0, &[])));
    assert_eq!(call_record(&Call::Drop(3)), Some(record(3, 3, 0, &[])));
    // What does not fit its byte is written as 255.
    for far in [255, 256, 263, 65_536, u32::MAX] {
        let begun = record_of(a.clone(), far, far);
        assert_eq!(begun, Some(record(0, 255, 255, &a[4..])));
        let dropped = call_record(&Call::Drop(far));
        assert_eq!(dropped, Some(record(3, 255, 0, &[])));
    }
    assert_eq!(call_record(&Call::Setup(bytes(S))), None);
    assert_eq!(call_record(&Call::Word(0)), None);
}

/// A badly formed instruction is the call's to refuse; bytes that are no job
/// record by 5 or 6 can't be recorded.
#[test]
fn the_record_of_a_job() {
    let record_of = |record: Vec<u8>| {
        let (worker, lock) = (0, 0);
        call_record(&Call::Begin {
            worker,
            lock,
            record,
        })
    };
    for instruction in [HALT, [8, 9, 9, 9]] {
        for count in 1..=64 {
            let program = vec![instruction; count];
            let wanted = record(0, 0, 0, &program.concat());
            assert_eq!(record_of(job(&program)), Some(wanted));
        }
    }
    for (kind, count) in [(1, 0), (1, 33), (1, 64), (4, 0), (4, 32), (4, 65), (5, 33)] {
        let none = job_of_kind(kind, &vec![HALT; count]);
        assert_eq!(record_of(none), None);
    }
    for none in [&[], &bytes(A)[..23], &bytes(S)] {
        assert_eq!(record_of(none.to_vec()), None);
    }
}

/// The line that the program has to write for a call made directly.
fn line_of(engine: &mut Engine, index: usize, call: &Call) -> String {
    let outcome = perform(engine, call);
    let refusal = outcome.refusal.map_or(0, |refusal| refusal.number);
    match (call, outcome.told) {
        (Call::Collect(_), Told::Collected(Some(told))) => {
            let (answer, steps, filled) = (told.answer.number(), told.steps, told.filled);
            format!("{index} {refusal} {answer} {steps} {filled}\n")
        }
        _ => format!("{index} {refusal} 0 0\n"),
    }
}

/// A file of recorded calls, cut at any record's edge after the setup, gives
/// the state and the answers of the calls made directly.
#[test]
fn walks_equal_the_calls_made_directly() {
    for seed in 0..200 {
        let mut generator = Generator::new(seed, Kind::Wide);
        let mut engine = Engine::blank();
        let mut file = Vec::new();
        let mut lines = String::new();
        let mut index = 0;
        for _ in 0..100 {
            let call = match generator.next(&engine) {
                Call::Setup(record) if file.is_empty() => {
                    engine.setup(&record).unwrap();
                    file = record;
                    continue;
                }
                Call::Step { worker, .. } => Call::Step { worker, times: 1 },
                other => other,
            };
            let Some(record) = call_record(&call).filter(|_| !file.is_empty()) else {
                continue;
            };
            file.extend(record);
            lines += &line_of(&mut engine, index, &call);
            index += 1;
            let walked = walk(&file);
            assert_eq!(walked.lines, lines, "seed {seed}");
            assert_eq!(walked.engine, engine, "seed {seed}");
            assert_eq!(walked.ended, Ended::Whole, "seed {seed}");
        }
        assert!(index > 20, "seed {seed}");
    }
}
