//! Every refusal with its place, and the order of each call's refusals.

mod common;
use common::{expect, job, numbers, repeated, setup, HALT};
use second::engine::{Engine, LockWord};
use second::script::hex;

/// An engine set up with S.
fn engine() -> Engine {
    let mut engine = Engine::blank();
    let record = setup(&[0, 0, 1], &[5, 9, 7], &[0, 0]);
    engine.setup(&record).unwrap();
    engine
}

/// What begin says to a job under lock 0 of S; (0, 0) if it takes it.
fn begun(program: &[[u8; 4]]) -> (u32, u32) {
    begun_with(&job(program))
}

fn begun_with(record: &[u8]) -> (u32, u32) {
    numbers(engine().begin(0, 0, record))
}

fn set_up(record: &[u8]) -> (u32, u32) {
    let mut engine = engine();
    let result = numbers(engine.setup(record));
    let blank = engine.read_lock(0).is_err() && engine.read_word(0).is_err();
    assert_eq!(blank, result != (0, 0));
    result
}

#[test]
fn refusals_1_3_4_and_11_of_a_worker() {
    expect(
        "setup S => 0 0
        begin 8 9 - => 1 0
        begin 4294967295 0 A => 1 0
        begin 4294967288 0 A => 1 0
        step 8 => 1 0 0
        step 256 3 => 1 0 0
        collect 8 => 1 0 0 0 0
        drop 65536 => 1 0
        step 7 => 11 0 0
        collect 7 => 11 0 0 0 0
        drop 7 => 11 0
        begin 7 0 A => 0 0
        begin 7 9 - => 3 0
        collect 7 => 3 0 0 0 0
        step 7 14 => 0 0 14
        begin 7 9 - => 4 0
        step 7 => 4 0 0
        collect 7 => 0 0 1 14 2
        collect 7 => 11 0 0 0 0
        begin 7 0 A => 0 0
        step 7 1000 => 4 0 14
        drop 7 => 0 0
        drop 7 => 11 0",
    );
}

#[test]
fn refusals_2_and_16_of_a_number() {
    expect(
        "setup S => 0 0
        begin 0 2 - => 2 0
        begin 0 256 A => 2 0
        begin 0 4294967295 A => 2 0
        lock 1 => 0 0 0 -
        lock 2 => 2 0 0 -
        lock 65536 => 2 0 0 -
        word 2 => 0 0 7 0 1
        word 3 => 16 0 0 0 0
        word 256 => 16 0 0 0 0
        word 4294967295 => 16 0 0 0 0",
    );
}

#[test]
fn refusals_on_the_blank_state() {
    expect(
        "begin 8 0 A => 1 0
        begin 0 0 - => 2 0
        step 8 => 1 0 0
        step 0 => 11 0 0
        collect 0 => 11 0 0 0 0
        drop 0 => 11 0
        word 0 => 16 0 0 0 0
        lock 0 => 2 0 0 -
        show 0 0 => 14 0 0 -
        park 0 => 12 4 0 -
        park 2 => 12 4 0 a5a5",
    );
}

#[test]
fn refusals_5_and_6_of_a_job() {
    let good = job(&[HALT]);
    assert_eq!(begun_with(&good), (0, 0));
    for length in 0..good.len() {
        assert_eq!(begun_with(&good[..length]), (5, 0));
    }
    // Length field and slice agree, but not on 4 + 4n.
    for length in (4u8..=12).filter(|length| length % 4 != 0 || *length == 4) {
        let mut record = vec![0; usize::from(length)];
        record[..4].copy_from_slice(&[length, 0, 1, 0]);
        assert_eq!(begun_with(&record), (5, 0));
        // The kind comes before that, but after the length field.
        record[2] = 2;
        assert_eq!(begun_with(&record), (6, 0));
        record[0] += 1;
        assert_eq!(begun_with(&record), (5, 0));
    }
    assert_eq!(begun_with(&[8, 1, 1, 0, 0, 0, 0, 0]), (5, 0));
    assert_eq!(begun_with(&[8, 0, 1, 1, 0, 0, 0, 0]), (6, 0));
    // A length that does not fit its field.
    let mut long = vec![0; 65_536 + 8];
    long[0] = 8;
    long[2] = 1;
    assert_eq!(begun_with(&long), (5, 0));
}

#[test]
fn refusal_7_of_an_instruction() {
    let bad: [[u8; 4]; 24] = [
        [0, 2, 0, 0],
        [0, 0, 1, 0],
        [0, 1, 0, 1],
        [1, 4, 0, 0],
        [2, 4, 0, 0],
        [2, 0, 0, 1],
        [3, 4, 0, 0],
        [3, 0, 0, 1],
        [4, 4, 0, 0],
        [4, 0, 4, 0],
        [5, 4, 0, 0],
        [5, 0, 4, 0],
        [5, 0, 0, 1],
        [6, 4, 0, 0],
        [6, 0, 4, 0],
        [6, 0, 0, 1],
        [7, 4, 0, 1],
        [7, 0, 4, 1],
        [7, 0, 0, 0],
        [7, 0, 0, 2],
        [7, 0, 0, 255],
        [8, 0, 0, 0],
        [255, 0, 0, 0],
        [2, 255, 255, 255],
    ];
    for instruction in bad {
        let program = [[1, 3, 255, 255], instruction, HALT, HALT];
        assert_eq!(begun(&program), (7, 1), "{instruction:?}");
    }
    for good in [[0, 1, 0, 0], [4, 3, 3, 1], [7, 3, 3, 1], [6, 3, 3, 0]] {
        assert_eq!(begun(&[[1, 3, 255, 255], good, HALT, HALT]), (0, 0));
    }
    // The last is no halt: at its own place, and before an 8 there.
    assert_eq!(begun(&[HALT, [1, 0, 0, 0]]), (7, 1));
    assert_eq!(begun(&[HALT, [2, 0, 63, 0]]), (7, 1));
    assert_eq!(begun(&[[7, 0, 0, 1]]), (7, 0));
    assert_eq!(begun(&[[7, 0, 0, 1], HALT]), (7, 0));
    assert_eq!(begun(&[[7, 0, 0, 1], HALT, HALT]), (0, 0));
}

#[test]
fn refusal_8_of_a_word() {
    for word in [2, 3, 64, 255] {
        assert_eq!(begun(&[HALT, [2, 0, word, 0], HALT]), (8, 1));
        assert_eq!(begun(&[HALT, [3, 0, word, 0], HALT]), (8, 1));
        assert_eq!(begun(&[HALT, [4, 0, 0, word], HALT]), (8, 1));
        // Set, add and sub name no word.
        assert_eq!(begun(&[HALT, [1, 0, word, 0], HALT]), (0, 0));
    }
    // The lowest faulty instruction decides, whichever fault it has.
    assert_eq!(begun(&[[2, 0, 2, 0], [8, 0, 0, 0], HALT]), (8, 0));
    assert_eq!(begun(&[[8, 0, 0, 0], [2, 0, 2, 0], HALT]), (7, 0));
    assert_eq!(begun(&[[2, 4, 2, 0], HALT]), (7, 0));
}

/// Free at the last turn, after the refusals of the record; but a lock held
/// at the last turn takes begins.
#[test]
fn refusal_9_of_a_turn() {
    let late = hex(&setup(&[0], &[5], &[67_108_863]));
    expect(&format!(
        "setup {late} => 0 0
        begin 0 0 A => 0 0
        begin 1 0 A => 0 0
        step 0 2 => 0 0 2
        lock 0 => 0 0 67108864 0
        begin 2 0 A => 0 0
        step 0 1000 => 4 0 12
        begin 3 0 - => 5 0
        begin 3 0 B => 8 1
        begin 3 0 A => 9 0
        step 1 1000 => 4 0 1
        collect 1 => 0 0 4 1 0
        begin 1 0 A => 9 0
        step 2 1000 => 4 0 1
        collect 2 => 0 0 4 1 0
        begin 2 0 A => 9 0"
    ));
}

/// Request 06: at a begin at most 7 workers are under way, each with one sheet
/// of its own and one it helps, and at most 16 locks are held: 30 of the 32
/// sheets are in use. Here they are, and the begin takes the next one.
#[test]
fn thirty_sheets_in_use_at_a_begin() {
    let mut engine = Engine::blank();
    engine.setup(&setup(&[0], &[0], &[0; 16])).unwrap();
    let halt = job(&[HALT]);
    let won = |engine: &mut Engine, lock| {
        engine.begin(0, lock, &halt).unwrap();
        engine.step(0).unwrap();
        engine.step(0).unwrap();
        engine.drop_worker(0).unwrap();
    };
    // Each of the 7 sees a sheet at lock 0, which worker 0 then runs to its end.
    for worker in 1..8 {
        won(&mut engine, 0);
        engine.begin(worker, 0, &halt).unwrap();
        engine.step(worker).unwrap();
        engine.begin(0, 0, &halt).unwrap();
        (0..4).for_each(|_| engine.step(0).unwrap());
        engine.collect(0).unwrap();
    }
    (0..16).for_each(|lock| won(&mut engine, lock));
    let shown = |engine: &Engine, sheet| engine.show(sheet, &mut [0; 8]).is_ok();
    let used: Vec<u32> = (0..32).filter(|&sheet| shown(&engine, sheet)).collect();
    assert_eq!(used, (0..30).collect::<Vec<_>>());
    engine.begin(0, 0, &halt).unwrap();
    assert!(shown(&engine, 30) && !shown(&engine, 31));
}

#[test]
fn refusals_5_6_and_12_of_a_setup() {
    let good = setup(&[0, 1], &[5, 9], &[0, 67_108_864]);
    assert_eq!(set_up(&good), (0, 0));
    let with = |changes: &[(usize, u8)]| {
        let mut record = good.clone();
        for &(place, byte) in changes {
            record[place] = byte;
        }
        set_up(&record)
    };
    assert_eq!(set_up(&[]), (5, 0));
    assert_eq!(set_up(&[3, 0, 2]), (5, 0));
    assert_eq!(set_up(&[4, 0, 1, 0]), (6, 0));
    assert_eq!(set_up(&[4, 0, 2, 0]), (5, 0));
    assert_eq!(set_up(&[5, 0, 2, 0, 0]), (5, 0));
    assert_eq!(set_up(&[6, 0, 2, 0, 0, 0]), (12, 4));
    assert_eq!(set_up(&[6, 0, 2, 0, 17, 0]), (12, 4));
    assert_eq!(set_up(&[6, 0, 2, 0, 16, 0]), (12, 5));
    assert_eq!(set_up(&[6, 0, 2, 0, 1, 65]), (12, 5));
    assert_eq!(set_up(&[6, 0, 2, 0, 1, 64]), (5, 0));
    assert_eq!(set_up(&good[..good.len() - 1]), (5, 0));
    assert_eq!(with(&[(0, 0)]), (5, 0));
    assert_eq!(with(&[(2, 1)]), (6, 0));
    assert_eq!(with(&[(3, 1)]), (6, 0));
    assert_eq!(with(&[(4, 3)]), (5, 0));
    assert_eq!(with(&[(4, 0)]), (12, 4));
    assert_eq!(with(&[(5, 255)]), (12, 5));
    assert_eq!(with(&[(6, 2)]), (12, 6));
    assert_eq!(with(&[(7, 255)]), (12, 7));
    assert_eq!(with(&[(6, 9), (7, 9), (19, 4)]), (12, 6));
    // Turns stand at 16 and 20; each is refused at its first byte.
    assert_eq!(with(&[(19, 4)]), (0, 0));
    assert_eq!(with(&[(16, 1), (19, 4)]), (12, 16));
    assert_eq!(with(&[(20, 1)]), (12, 20));
    assert_eq!(with(&[(19, 255), (23, 255)]), (12, 16));
    assert_eq!(with(&[(7, 2), (23, 255)]), (12, 7));
    let full = setup(&[15; 64], &[u32::MAX; 64], &[67_108_864; 16]);
    assert_eq!(full.len(), 390);
    assert_eq!(set_up(&full), (0, 0));
    let mut long = vec![0; 65_536 + 16];
    long[0] = 16;
    long[2] = 2;
    assert_eq!(set_up(&long), (5, 0));
}

#[test]
fn refusals_13_and_14_of_show() {
    let a = common::A.to_lowercase();
    expect(&format!(
        "setup S => 0 0
        show 0 0 => 14 0 0 -
        show 32 0 => 14 0 0 -
        show 256 2 => 14 0 0 a5a5
        show 4294967295 0 => 14 0 0 -
        begin 5 0 A => 0 0
        show 0 23 => 13 0 0 {fill}
        show 0 0 => 13 0 0 -
        show 0 24 => 0 0 24 {a}
        show 0 25 => 0 0 24 {a}a5
        show 31 24 => 14 0 0 {fill}a5
        show 4294967264 24 => 14 0 0 {fill}a5",
        fill = "a5".repeat(23)
    ));
}

#[test]
fn refusals_12_13_and_15_of_park() {
    let s = common::S.to_lowercase();
    let c = hex(&job(&[[2, 0, 2, 0], HALT]));
    expect(&format!(
        "setup S => 0 0
        park 28 => 13 0 0 {fill}
        park 29 => 0 0 29 {s}
        begin 0 1 {c} => 0 0
        park 29 => 0 0 29 {s}
        step 0 2 => 0 0 2
        park 0 => 15 1 0 -
        begin 1 0 B => 0 0
        step 1 2 => 0 0 2
        park 28 => 15 0 0 {fill}
        step 1 1000 => 4 0 10
        park 28 => 15 1 0 {fill}
        setup - => 5 0
        park 1 => 12 4 0 a5",
        fill = "a5".repeat(28)
    ));
}

/// Places at the end of the longest job of each kind.
#[test]
fn refusals_at_the_last_places() {
    for count in [32, 64] {
        let last = count - 1;
        let at = |place: usize| place as u32;
        let mut program = repeated([1, 0, 0, 0], count);
        assert_eq!(begun(&program), (0, 0));
        program[last - 1] = [2, 0, 2, 0];
        assert_eq!(begun(&program), (8, at(last - 1)));
        program[last - 2] = [7, 0, 0, 2];
        assert_eq!(begun(&program), (7, at(last - 2)));
        program[last - 2] = [7, 0, 0, 1];
        program[last - 1] = [1, 0, 0, 0];
        assert_eq!(begun(&program), (0, 0));
        program[0] = [7, 0, 0, last as u8 - 1];
        assert_eq!(begun(&program), (0, 0));
        program[0] = [7, 0, 0, last as u8];
        assert_eq!(begun(&program), (7, 0));
        program[0] = HALT;
        program[last] = [1, 0, 0, 0];
        assert_eq!(begun(&program), (7, at(last)));
    }
}
