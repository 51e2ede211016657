//! Fixed schedules: what random calls nearly miss, and the bounds.

mod common;
use common::{expect, job, repeated, setup};
use second::alone::{self, Ended};
use second::script::hex;

/// A sheet seen at step 3 counts as helped from that very step: worker 2
/// must not get worker 0's sheet.
#[test]
fn sheet_seen_at_step_three() {
    let a = common::A.to_lowercase();
    let b = common::B.to_lowercase();
    expect(&format!(
        "setup S => 0 0
        begin 0 0 A => 0 0
        begin 1 0 B => 0 0
        step 1 => 0 0 1
        step 0 2 => 0 0 2
        step 1 => 0 0 1
        lock 0 => 0 0 1 0
        step 1 => 0 0 1
        step 0 1000 => 4 0 12
        collect 0 => 0 0 1 14 2
        begin 2 0 B => 0 0
        show 0 24 => 0 0 24 {a}
        show 1 24 => 0 0 24 {b}
        show 2 24 => 0 0 24 {b}
        show 3 0 => 14 0 0 -
        step 1 1000 => 4 0 11
        collect 1 => 0 0 3 14 0
        show 0 0 => 14 0 0 -
        word 0 => 0 0 6 1 0
        lock 0 => 0 0 1 -
        step 2 1000 => 4 0 12
        collect 2 => 0 0 2 12 2"
    ));
}

/// On a word that holds 5 a job stores 6, then 5. A helper that comes late
/// to the first swap changes nothing: the count has gone on.
#[test]
fn six_then_five_and_a_late_helper() {
    let six_then_five = hex(&job(&[
        [1, 0, 6, 0],
        [3, 0, 0, 0],
        [1, 0, 5, 0],
        [3, 0, 0, 0],
        [0, 1, 0, 0],
    ]));
    expect(&format!(
        "setup S => 0 0
        begin 0 0 {six_then_five} => 0 0
        step 0 2 => 0 0 2
        begin 1 0 B => 0 0
        step 1 4 => 0 0 4
        step 0 6 => 0 0 6
        word 0 => 0 0 6 1 0
        step 0 4 => 0 0 4
        word 0 => 0 0 5 2 0
        step 1 => 0 0 1
        word 0 => 0 0 5 2 0
        step 0 1000 => 4 0 3
        collect 0 => 0 0 1 15 1
        step 1 1000 => 4 0 7
        collect 1 => 0 0 3 12 1
        word 0 => 0 0 5 2 0
        lock 0 => 0 0 1 -"
    ));
}

/// What is told of the longest jobs, 63 stores and 63 cams that match on a word
/// that is 0, three steps each: worker 0 begins one, worker 1 begins B, and the
/// rest follows; LONGEST stands for the job.
fn expect_of_longest(rest: &str) {
    let zero = hex(&setup(&[0, 0], &[0, 9], &[0]));
    for change in [[3, 0, 0, 0], [4, 0, 0, 0]] {
        let longest = hex(&job(&repeated(change, 64)));
        let rest = rest.replace("LONGEST", &longest);
        expect(&format!(
            "setup {zero} => 0 0
            begin 0 0 {longest} => 0 0
            begin 1 0 B => 0 0
            {rest}"
        ));
    }
}

/// 190 steps of running, 196 for its own try, 193 for a try that helps from
/// step 1, 196 for one that helps from step 3.
#[test]
fn longest_tries() {
    expect_of_longest(
        "begin 2 0 B => 0 0
        step 1 => 0 0 1
        step 0 2 => 0 0 2
        step 2 => 0 0 1
        step 1 2 => 0 0 2
        step 0 1000 => 4 0 194
        collect 0 => 0 0 2 196 63
        word 0 => 0 0 0 63 0
        step 2 1000 => 4 0 192
        collect 2 => 0 0 3 193 0
        step 1 1000 => 4 0 193
        collect 1 => 0 0 3 196 0
        word 0 => 0 0 0 63 0",
    );
}

/// Helped in the middle, after 32 of the 63 changes: from step 3 by a try that
/// lost its grab, and the owner goes on after it; from step 1 by one that
/// begins when the owner is dropped.
#[test]
fn longest_tries_helped_in_the_middle() {
    expect_of_longest(
        "step 1 => 0 0 1
        step 0 100 => 0 0 100
        word 0 => 0 0 0 32 0
        step 1 1000 => 4 0 195
        collect 1 => 0 0 3 196 31
        word 0 => 0 0 0 63 0
        lock 0 => 0 0 1 -
        step 0 1000 => 4 0 96
        collect 0 => 0 0 2 196 32
        begin 0 0 LONGEST => 0 0
        step 0 100 => 0 0 100
        drop 0 => 0 0
        begin 1 0 B => 0 0
        step 1 97 => 0 0 97
        word 0 => 0 0 0 95 0
        step 1 1000 => 4 0 96
        collect 1 => 0 0 3 193 31
        word 0 => 0 0 0 126 0
        lock 0 => 0 0 2 -",
    );
}

/// A cam compares the committed value; where it differs it is over after its
/// commit. A swap that writes the value already there raises the count.
#[test]
fn cam_and_equal_swap() {
    let cams = hex(&job(&[
        [1, 1, 5, 0],
        [4, 1, 1, 0],
        [4, 0, 1, 0],
        [0, 0, 0, 0],
    ]));
    expect(&format!(
        "setup S => 0 0
        begin 0 0 {cams} => 0 0
        step 0 1000 => 4 0 13
        collect 0 => 0 0 2 13 2
        word 0 => 0 0 5 1 0"
    ));
}

/// A helper in the middle of a load goes on with what the entry holds, not
/// with its own later reading.
#[test]
fn load_goes_on_with_the_entry() {
    expect(
        "setup S => 0 0
        begin 0 0 A => 0 0
        step 0 4 => 0 0 4
        begin 1 0 B => 0 0
        step 1 8 => 0 0 8
        word 0 => 0 0 6 1 0
        step 0 7 => 0 0 7
        word 0 => 0 0 6 1 0
        step 0 1000 => 4 0 3
        collect 0 => 0 0 1 14 0",
    );
}

/// A finished worker has no sheet, and a drop of it loses its answer; a
/// dropped worker's held sheet stays in use.
#[test]
fn sheets_that_are_taken_again() {
    let a = common::A.to_lowercase();
    let b = common::B.to_lowercase();
    expect(&format!(
        "setup S => 0 0
        begin 0 0 A => 0 0
        show 0 24 => 0 0 24 {a}
        step 0 1000 => 4 0 14
        show 0 24 => 14 0 0 {fill}
        begin 1 0 B => 0 0
        show 0 24 => 0 0 24 {b}
        drop 0 => 0 0
        collect 0 => 11 0 0 0 0
        step 1 2 => 0 0 2
        drop 1 => 0 0
        show 0 24 => 0 0 24 {b}
        begin 1 0 A => 0 0
        show 1 26 => 0 0 24 {a}a5a5",
        fill = "a5".repeat(24)
    ));
}

/// Park writes the present values and turns; set up again from that record,
/// the state is the same but for the counts.
#[test]
fn park_and_set_up_again() {
    let parked = hex(&setup(&[0, 0, 1], &[6, 9, 7], &[1, 0]));
    expect(&format!(
        "setup S => 0 0
        begin 0 0 A => 0 0
        step 0 1000 => 4 0 14
        begin 1 0 B => 0 0
        step 1 => 0 0 1
        park 30 => 0 0 29 {parked}a5
        park 29 => 0 0 29 {parked}
        setup {parked} => 0 0
        word 0 => 0 0 6 0 0
        lock 0 => 0 0 1 -
        step 1 => 11 0 0"
    ));
}

/// A job alone counts the halt, and not what is passed over.
#[test]
fn job_alone() {
    let b = [
        [2, 0, 0, 0],
        [2, 1, 1, 0],
        [7, 0, 1, 1],
        [0, 0, 0, 0],
        [0, 1, 0, 0],
    ];
    let mut words = [5, 9];
    let (yes, executed) = (false, 4);
    assert_eq!(alone::run(&b, &mut words), Ended { yes, executed });
    let mut words = [9, 9];
    let (yes, executed) = (true, 4);
    assert_eq!(alone::run(&b, &mut words), Ended { yes, executed });
    let wrap = [
        [1, 0, 1, 1],
        [6, 1, 0, 0],
        [3, 1, 0, 0],
        [4, 1, 2, 0],
        [0, 1, 0, 0],
    ];
    let (parts, ended) = alone::first_parts(&wrap, &[5]);
    let after_store = 0u32.wrapping_sub(257);
    let values: Vec<u32> = parts.iter().map(|part| part[0]).collect();
    assert_eq!(values, [5, 5, 5, after_store, 0, 0]);
    let (yes, executed) = (true, 5);
    assert_eq!(ended, Ended { yes, executed });
}
