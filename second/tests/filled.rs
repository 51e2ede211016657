//! Who filled the log's entries (request 02): fixed schedules on S with the
//! numbers worked out by hand. A has two entries, and so has B; EXCHANGE has
//! four and takes 17 steps alone, of which the 6th, 8th, 10th and 13th commit.

mod common;
use common::{expect, job};
use second::script::hex;

/// Exchanges words 0 and 1.
const EXCHANGE: [[u8; 4]; 5] = [
    [2, 0, 0, 0],
    [2, 1, 1, 0],
    [3, 1, 0, 0],
    [3, 0, 1, 0],
    [0, 1, 0, 0],
];
const HALT: [[u8; 4]; 1] = [[0, 1, 0, 0]];

/// A worker alone fills every entry that its run passes: of the load, of the
/// cam, though it does not swap, and of the second store, but not of the
/// first, which is passed over. A job without such instructions fills none.
#[test]
fn alone_on_a_free_lock() {
    let passing = hex(&job(&[
        [2, 0, 0, 0],
        [7, 0, 0, 1],
        [3, 0, 0, 0],
        [4, 1, 0, 1],
        [3, 0, 1, 0],
        [0, 1, 0, 0],
    ]));
    let (exchange, halt) = (hex(&job(&EXCHANGE)), hex(&job(&HALT)));
    expect(&format!(
        "setup S => 0 0
        begin 0 0 {passing} => 0 0
        step 0 1000 => 4 0 15
        collect 0 => 0 0 1 15 3
        word 0 => 0 0 5 0 0
        word 1 => 0 0 5 1 0
        begin 0 0 {halt} => 0 0
        step 0 1000 => 4 0 7
        collect 0 => 0 0 1 7 0
        begin 0 0 {exchange} => 0 0
        step 0 1000 => 4 0 17
        collect 0 => 0 0 1 17 4"
    ));
}

/// A dropped worker filled the first two entries; its helper finds them
/// filled, and is the first to fill the other two.
#[test]
fn the_rest_of_a_dropped_run() {
    let exchange = hex(&job(&EXCHANGE));
    expect(&format!(
        "setup S => 0 0
        begin 0 0 {exchange} => 0 0
        step 0 8 => 0 0 8
        drop 0 => 0 0
        begin 1 0 B => 0 0
        step 1 1000 => 4 0 14
        collect 1 => 0 0 3 14 2
        word 0 => 0 0 9 1 0
        word 1 => 0 0 5 1 0
        collect 0 => 11 0 0 0 0"
    ));
}

/// The owner fills two, a helper the third, another helper the fourth. The
/// first helper's drop loses its number, and no other one takes it over.
#[test]
fn three_runs_of_one_log() {
    let exchange = hex(&job(&EXCHANGE));
    expect(&format!(
        "setup S => 0 0
        begin 0 0 {exchange} => 0 0
        step 0 8 => 0 0 8
        begin 1 0 B => 0 0
        step 1 7 => 0 0 7
        begin 2 0 B => 0 0
        step 2 1000 => 4 0 14
        drop 1 => 0 0
        step 0 1000 => 4 0 9
        collect 0 => 0 0 1 17 2
        collect 2 => 0 0 3 14 1
        word 0 => 0 0 9 1 0
        word 1 => 0 0 5 1 0"
    ));
}

/// Whoever comes to a log that is wholly filled tells 0: a helper after the
/// owner's last commit, and an owner whose helper was faster.
#[test]
fn nothing_left_to_fill() {
    let exchange = hex(&job(&EXCHANGE));
    expect(&format!(
        "setup S => 0 0
        begin 0 0 {exchange} => 0 0
        step 0 13 => 0 0 13
        begin 1 0 B => 0 0
        step 1 1000 => 4 0 14
        collect 1 => 0 0 3 14 0
        step 0 1000 => 4 0 4
        collect 0 => 0 0 1 17 4
        begin 0 0 {exchange} => 0 0
        step 0 4 => 0 0 4
        begin 1 0 B => 0 0
        step 1 1000 => 4 0 14
        collect 1 => 0 0 3 14 4
        step 0 1000 => 4 0 13
        collect 0 => 0 0 1 17 0"
    ));
}

/// Each begin counts afresh, after a drop under way, a collect or a drop of
/// a finished worker. What the same worker filled before its drop is filled.
#[test]
fn counted_afresh() {
    let halt = hex(&job(&HALT));
    expect(&format!(
        "setup S => 0 0
        begin 0 0 A => 0 0
        step 0 10 => 0 0 10
        drop 0 => 0 0
        begin 0 0 B => 0 0
        step 0 1000 => 4 0 11
        collect 0 => 0 0 3 11 0
        begin 0 0 B => 0 0
        step 0 1000 => 4 0 12
        collect 0 => 0 0 2 12 2
        begin 0 0 {halt} => 0 0
        step 0 1000 => 4 0 7
        collect 0 => 0 0 1 7 0
        begin 0 0 A => 0 0
        step 0 1000 => 4 0 14
        drop 0 => 0 0
        begin 0 0 {halt} => 0 0
        step 0 1000 => 4 0 7
        collect 0 => 0 0 1 7 0"
    ));
}

/// A try that lost at Grab, and found nothing to run at 4, tells 0, whatever
/// the try before it has told.
#[test]
fn lost_and_nothing_to_run() {
    expect(
        "setup S => 0 0
        begin 1 0 B => 0 0
        step 1 1000 => 4 0 12
        collect 1 => 0 0 2 12 2
        begin 1 0 B => 0 0
        step 1 => 0 0 1
        begin 0 0 A => 0 0
        step 0 1000 => 4 0 14
        collect 0 => 0 0 1 14 2
        step 1 1000 => 4 0 3
        collect 1 => 0 0 3 4 0",
    );
}
