//! Who calls whom while instructions are counted: callgrind tells what the
//! calls of one function by another took, so each purpose has a caller of its
//! own, and each side has functions of fixed names to be called.

use chantgarden::lent::{Collected, Lock, Reply, Word, Wrote};
use compare::{Calls, Second};

/// The points of a try, in document 01's order, and who makes the steps
/// there.
pub const POINTS: [(&str, &str); 9] = [
    ("Look", "at_look"),
    ("Grab", "at_grab"),
    ("Look again", "at_look_again"),
    ("Read mark", "at_read_mark"),
    ("Read", "at_read"),
    ("Commit", "at_commit"),
    ("Swap", "at_swap"),
    ("Mark", "at_mark"),
    ("Release", "at_release"),
];

/// Makes functions that make one call each, which is accepted. They are never
/// inlined, and no two of them are alike, so that none is made from another.
macro_rules! callers {
    ($($caller:ident: $call:ident($($given:ident: $kind:ty),*) -> $told:ty;)*) => {$(
        #[inline(never)]
        pub fn $caller<S: Calls>(side: &mut S, $($given: $kind),*) -> $told {
            let told = side.$call($($given),*);
            assert_eq!(told.number, 0, stringify!($caller));
            told
        }
    )*};
}

callers! {
    to_setup: setup(record: &[u8]) -> Reply;
    to_begin: begin(worker: u32, lock: u32, record: &[u8]) -> Reply;
    to_collect: collect(worker: u32) -> Collected;
    to_drop: drop_worker(worker: u32) -> Reply;
    to_show: show(sheet: u32, buffer: &mut [u8]) -> Wrote;
    to_park: park(buffer: &mut [u8]) -> Wrote;
    at_look: step(worker: u32) -> Reply;
    at_grab: step(worker: u32) -> Reply;
    at_look_again: step(worker: u32) -> Reply;
    at_read_mark: step(worker: u32) -> Reply;
    at_read: step(worker: u32) -> Reply;
    at_commit: step(worker: u32) -> Reply;
    at_swap: step(worker: u32) -> Reply;
    at_mark: step(worker: u32) -> Reply;
    at_release: step(worker: u32) -> Reply;
}

/// Makes a step at one of the points.
pub fn step_at<S: Calls>(side: &mut S, worker: u32, point: u32) -> Reply {
    let callers = [
        at_look,
        at_grab,
        at_look_again,
        at_read_mark,
        at_read,
        at_commit,
        at_swap,
        at_mark,
        at_release,
    ];
    callers[point as usize](side, worker)
}

/// The second program with a function around each call, as a C library of it
/// would have: it gives the header's answers. What that takes, a few
/// instructions a call, counts in.
pub struct Door(pub Second);

/// Makes these functions, and has the second program called through them.
macro_rules! doors {
    ($($door:ident: [$($by:tt)*] $call:ident($($given:ident: $kind:ty),*) -> $told:ty;)*) => {
        $(
            #[no_mangle]
            #[inline(never)]
            fn $door(side: $($by)* Second, $($given: $kind),*) -> $told {
                side.$call($($given),*)
            }
        )*

        impl Calls for Door {
            $(
                #[inline]
                fn $call($($by)* self, $($given: $kind),*) -> $told {
                    $door($($by)* self.0, $($given),*)
                }
            )*
        }
    };
}

doors! {
    second_setup: [&mut] setup(record: &[u8]) -> Reply;
    second_begin: [&mut] begin(worker: u32, lock: u32, record: &[u8]) -> Reply;
    second_step: [&mut] step(worker: u32) -> Reply;
    second_collect: [&mut] collect(worker: u32) -> Collected;
    second_drop: [&mut] drop_worker(worker: u32) -> Reply;
    second_read_word: [&] read_word(word: u32) -> Word;
    second_read_lock: [&] read_lock(lock: u32) -> Lock;
    second_show: [&] show(sheet: u32, buffer: &mut [u8]) -> Wrote;
    second_park: [&] park(buffer: &mut [u8]) -> Wrote;
}
