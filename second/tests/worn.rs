//! A worn lock, free at its last turn (request 03): fixed schedules near the
//! last turn with the numbers worked out by hand. Alone, A takes 14 steps and
//! a try that helps it from step 1 takes 11, from step 3 14.

mod common;
use common::{expect, job, setup};
use second::script::hex;

/// S with this starting turn of lock 0.
fn late(turn: u32) -> String {
    hex(&setup(&[0, 0, 1], &[5, 9, 7], &[turn, 0]))
}

/// Loads word 2, under lock 1: 9 steps alone, one entry.
fn other() -> String {
    hex(&job(&[[2, 0, 2, 0], [0, 1, 0, 0]]))
}

/// Worker 0 takes the last turn and gives the lock back. Worker 1, begun
/// before, looks: worn, with one step and no entry. Any further begin on that
/// lock is refused, and on the other one accepted.
#[test]
fn told_by_look() {
    let (late, other) = (late(67_108_863), other());
    expect(&format!(
        "setup {late} => 0 0
        begin 0 0 A => 0 0
        begin 1 0 B => 0 0
        step 0 1000 => 4 0 14
        lock 0 => 0 0 67108864 -
        step 1 => 0 0 1
        step 1 => 4 0 0
        collect 0 => 0 0 1 14 2
        collect 1 => 0 0 4 1 0
        begin 0 0 A => 9 0
        begin 1 0 B => 9 0
        begin 7 0 A => 9 0
        lock 0 => 0 0 67108864 -
        word 0 => 0 0 6 1 0
        begin 1 1 {other} => 0 0
        step 1 1000 => 4 0 9
        collect 1 => 0 0 1 9 1"
    ));
}

/// Whenever a try began, free or held, two turns before or at the last one:
/// it is told worn where it has not looked before the lock is worn.
#[test]
fn told_of_tries_that_began_before() {
    let late = late(67_108_862);
    expect(&format!(
        "setup {late} => 0 0
        begin 0 0 A => 0 0
        begin 1 0 B => 0 0
        step 0 2 => 0 0 2
        lock 0 => 0 0 67108863 0
        begin 2 0 B => 0 0
        step 0 1000 => 4 0 12
        collect 0 => 0 0 1 14 2
        begin 3 0 B => 0 0
        begin 0 0 A => 0 0
        step 0 2 => 0 0 2
        lock 0 => 0 0 67108864 3
        begin 4 0 B => 0 0
        step 0 1000 => 4 0 12
        begin 5 0 B => 9 0
        step 4 1000 => 4 0 1
        step 3 1000 => 4 0 1
        step 2 1000 => 4 0 1
        step 1 1000 => 4 0 1
        collect 1 => 0 0 4 1 0
        collect 2 => 0 0 4 1 0
        collect 3 => 0 0 4 1 0
        collect 4 => 0 0 4 1 0
        collect 0 => 0 0 1 14 2
        word 0 => 0 0 7 2 0"
    ));
}

/// Look finds the lock held at the last turn: the helper releases it and is
/// told not taken, and its next begin is refused.
#[test]
fn helped_at_the_last_turn() {
    let late = late(67_108_863);
    expect(&format!(
        "setup {late} => 0 0
        begin 0 0 A => 0 0
        step 0 2 => 0 0 2
        lock 0 => 0 0 67108864 0
        begin 1 0 B => 0 0
        step 1 1000 => 4 0 11
        collect 1 => 0 0 3 11 2
        lock 0 => 0 0 67108864 -
        begin 1 0 B => 9 0
        step 0 1000 => 4 0 12
        collect 0 => 0 0 1 14 0
        begin 0 0 A => 9 0
        word 0 => 0 0 6 1 0"
    ));
}

/// The same where the owner, which was dropped after its last commit, never
/// comes back; another try, begun while the lock was held, then finds it worn.
#[test]
fn helped_after_a_drop() {
    let late = late(67_108_863);
    expect(&format!(
        "setup {late} => 0 0
        begin 0 0 A => 0 0
        step 0 10 => 0 0 10
        drop 0 => 0 0
        begin 1 0 B => 0 0
        begin 2 0 B => 0 0
        step 1 1000 => 4 0 11
        collect 1 => 0 0 3 11 0
        begin 1 0 B => 9 0
        step 2 1000 => 4 0 1
        collect 2 => 0 0 4 1 0
        begin 2 0 B => 9 0
        word 0 => 0 0 6 1 0"
    ));
}

/// A helper that goes on when the owner has released: the lock is worn before
/// its run ends, and it is told not taken all the same.
#[test]
fn worn_under_a_helper() {
    let late = late(67_108_863);
    expect(&format!(
        "setup {late} => 0 0
        begin 0 0 A => 0 0
        step 0 2 => 0 0 2
        begin 1 0 B => 0 0
        step 1 => 0 0 1
        step 0 1000 => 4 0 12
        collect 0 => 0 0 1 14 2
        begin 0 0 A => 9 0
        step 1 1000 => 4 0 10
        collect 1 => 0 0 3 11 0
        begin 1 0 B => 9 0"
    ));
}

/// Worker 1 loses its grab of the last turn, and helps from step 3.
#[test]
fn helped_from_step_three() {
    let late = late(67_108_863);
    expect(&format!(
        "setup {late} => 0 0
        begin 0 0 A => 0 0
        begin 1 0 B => 0 0
        step 0 => 0 0 1
        step 1 => 0 0 1
        step 0 => 0 0 1
        step 1 1000 => 4 0 13
        collect 1 => 0 0 3 14 2
        lock 0 => 0 0 67108864 -
        begin 1 0 B => 9 0
        step 0 1000 => 4 0 12
        collect 0 => 0 0 1 14 0"
    ));
}

/// Workers 1, 2 and 3 look free two turns before the last one and lose their
/// grabs. Worker 1 has looked again when the lock becomes worn, worker 2 has
/// not, worker 3 has not even grabbed. Step 4 tells each not taken.
#[test]
fn worn_at_step_four() {
    let late = late(67_108_862);
    expect(&format!(
        "setup {late} => 0 0
        begin 0 0 A => 0 0
        begin 1 0 B => 0 0
        begin 2 0 B => 0 0
        begin 3 0 B => 0 0
        step 1 => 0 0 1
        step 2 => 0 0 1
        step 3 => 0 0 1
        step 0 1000 => 4 0 14
        collect 0 => 0 0 1 14 2
        step 1 2 => 0 0 2
        begin 0 0 A => 0 0
        step 0 2 => 0 0 2
        step 2 => 0 0 1
        step 0 1000 => 4 0 12
        lock 0 => 0 0 67108864 -
        step 1 1000 => 4 0 1
        collect 1 => 0 0 3 4 0
        step 2 1000 => 4 0 2
        collect 2 => 0 0 3 4 0
        step 3 1000 => 4 0 3
        collect 3 => 0 0 3 4 0
        begin 1 0 B => 9 0
        collect 0 => 0 0 1 14 2
        word 0 => 0 0 7 2 0"
    ));
}

/// Worn from the setup on: no try begins there. Park keeps the turn.
#[test]
fn worn_from_the_setup_on() {
    let (late, other) = (late(67_108_864), other());
    let parked = hex(&setup(&[0, 0, 1], &[5, 9, 7], &[67_108_864, 1]));
    expect(&format!(
        "setup {late} => 0 0
        lock 0 => 0 0 67108864 -
        begin 0 0 A => 9 0
        begin 7 0 B => 9 0
        step 0 => 11 0 0
        begin 0 1 {other} => 0 0
        step 0 1000 => 4 0 9
        collect 0 => 0 0 1 9 1
        begin 0 0 A => 9 0
        park 29 => 0 0 29 {parked}
        setup {parked} => 0 0
        begin 0 0 A => 9 0"
    ));
}

/// An answer like any other: the sheet is free from that step on, the worker
/// takes no begin before its collect, and a drop loses the answer.
#[test]
fn collected_or_dropped() {
    let (late, other) = (late(67_108_863), other());
    let b = common::B.to_lowercase();
    expect(&format!(
        "setup {late} => 0 0
        begin 0 0 A => 0 0
        begin 1 0 B => 0 0
        begin 2 0 B => 0 0
        step 0 1000 => 4 0 14
        collect 1 => 3 0 0 0 0
        show 1 24 => 0 0 24 {b}
        step 1 => 0 0 1
        show 1 0 => 14 0 0 -
        begin 1 1 {other} => 4 0
        collect 1 => 0 0 4 1 0
        collect 1 => 11 0 0 0 0
        begin 1 1 {other} => 0 0
        step 1 1000 => 4 0 9
        collect 1 => 0 0 1 9 1
        step 2 => 0 0 1
        drop 2 => 0 0
        collect 2 => 11 0 0 0 0
        begin 2 0 B => 9 0"
    ));
}
