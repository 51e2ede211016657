//! The example table of document 01, all rows.

mod common;
use common::{expect, job, job_of_kind, setup, B};
use second::engine::Engine;
use second::script::hex;

#[test]
fn row_a() {
    expect(
        "setup S => 0 0
        begin 0 0 A => 0 0
        step 0 1000 => 4 0 14
        collect 0 => 0 0 1 14 2
        word 0 => 0 0 6 1 0
        lock 0 => 0 0 1 -",
    );
}

/// Row a once more, word and lock word after each step.
#[test]
fn row_a_step_by_step() {
    let mut engine = Engine::blank();
    let record = setup(&[0, 0, 1], &[5, 9, 7], &[0, 0]);
    engine.setup(&record).unwrap();
    let add = [[2, 0, 0, 0], [1, 1, 1, 0], [5, 0, 1, 0], [3, 0, 0, 0]];
    let program = [&add[..], &[[0, 1, 0, 0]]].concat();
    engine.begin(0, 0, &job(&program)).unwrap();
    for step in 1..=14 {
        engine.step(0).unwrap();
        let word = engine.read_word(0).unwrap();
        let lock = engine.read_lock(0).unwrap();
        let swapped = step >= 11;
        assert_eq!(word.value, if swapped { 6 } else { 5 });
        assert_eq!(word.count, u32::from(swapped));
        assert_eq!(lock.turn, u32::from(step >= 2));
        assert_eq!(lock.sheet, (2..14).contains(&step).then_some(0));
    }
}

#[test]
fn row_b() {
    expect(
        "setup S => 0 0
        begin 0 0 B => 0 0
        step 0 12 => 0 0 12
        step 0 => 4 0 0
        collect 0 => 0 0 2 12 2",
    );
}

#[test]
fn rows_c_and_d() {
    expect(
        "setup S => 0 0
        begin 0 0 A => 0 0
        step 0 10 => 0 0 10
        drop 0 => 0 0
        word 0 => 0 0 5 0 0
        lock 0 => 0 0 1 0
        begin 1 0 B => 0 0
        step 1 1000 => 4 0 11
        collect 1 => 0 0 3 11 0
        word 0 => 0 0 6 1 0
        lock 0 => 0 0 1 -",
    );
}

#[test]
fn row_e() {
    expect(
        "setup S => 0 0
        begin 0 0 A => 0 0
        step 0 10 => 0 0 10
        begin 1 0 B => 0 0
        step 1 1000 => 4 0 11
        collect 1 => 0 0 3 11 0
        step 0 1000 => 4 0 4
        collect 0 => 0 0 1 14 2
        word 0 => 0 0 6 1 0",
    );
}

#[test]
fn row_f() {
    expect(
        "setup S => 0 0
        begin 0 0 A => 0 0
        step 0 => 0 0 1
        drop 0 => 0 0
        lock 0 => 0 0 0 -",
    );
}

#[test]
fn row_g() {
    expect(
        "setup S => 0 0
        begin 0 0 A => 0 0
        begin 1 0 B => 0 0
        step 0 => 0 0 1
        step 1 => 0 0 1
        step 0 => 0 0 1
        step 1 1000 => 4 0 13
        collect 1 => 0 0 3 14 2
        word 0 => 0 0 6 1 0",
    );
}

#[test]
fn row_h() {
    expect(
        "setup S => 0 0
        begin 0 0 A => 0 0
        step 0 2 => 0 0 2
        begin 1 0 B => 0 0
        step 1 1000 => 4 0 11
        collect 1 => 0 0 3 11 2
        step 0 1000 => 4 0 12
        collect 0 => 0 0 1 14 0
        word 0 => 0 0 6 1 0",
    );
}

#[test]
fn row_i() {
    let skip_two = B.replace("07000101", "07000102");
    expect(&format!(
        "setup S => 0 0
        begin 0 0 {skip_two} => 7 2"
    ));
}

#[test]
fn row_j() {
    expect(
        "setup S => 0 0
        begin 0 1 A => 8 0",
    );
}

#[test]
fn row_k() {
    let halts = |count: usize| hex(&job_of_kind(1, &vec![[0, 0, 0, 0]; count]));
    assert_eq!(halts(32).len(), 2 * 132);
    let (full, above, none) = (halts(32), halts(33), halts(0));
    expect(&format!(
        "setup S => 0 0
        begin 0 0 {full} => 0 0
        begin 1 0 {above} => 5 0
        begin 1 0 {none} => 5 0
        show 0 132 => 0 0 132 {full}"
    ));
}

/// Row k for request 04's kind: 64 instructions (260 bytes) and 33; 65, 32
/// and none.
#[test]
fn row_k_of_kind_4() {
    let halts = |count: usize| hex(&job_of_kind(4, &vec![[0, 0, 0, 0]; count]));
    assert_eq!(halts(64).len(), 2 * 260);
    let (full, fewest) = (halts(64), halts(33));
    let (above, below, none) = (halts(65), halts(32), halts(0));
    expect(&format!(
        "setup S => 0 0
        begin 0 0 {full} => 0 0
        begin 1 0 {fewest} => 0 0
        begin 2 0 {above} => 5 0
        begin 2 0 {below} => 5 0
        begin 2 0 {none} => 5 0
        show 0 260 => 0 0 260 {full}
        show 1 136 => 0 0 136 {fewest}"
    ));
}

#[test]
fn row_l() {
    let starting = |turn: u32| hex(&setup(&[0], &[5], &[turn]));
    let (last_but_one, last) = (starting(67_108_863), starting(67_108_864));
    let above = starting(67_108_865);
    expect(&format!(
        "setup {last_but_one} => 0 0
        begin 0 0 A => 0 0
        begin 1 0 A => 0 0
        step 1 => 0 0 1
        step 0 1000 => 4 0 14
        collect 0 => 0 0 1 14 2
        lock 0 => 0 0 67108864 -
        begin 0 0 A => 9 0
        step 1 1000 => 4 0 3
        collect 1 => 0 0 3 4 0
        setup {last} => 0 0
        begin 0 0 A => 9 0
        setup {above} => 12 11
        lock 0 => 2 0 0 -"
    ));
}
