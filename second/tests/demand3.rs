//! The checker of demand 3 and of requests 02 to 04 over random histories of
//! the right engine, and over engines that are made wrong on purpose.

mod common;
use common::{job, repeated, setup};
use second::check::{random_history, Broken, Checker};
use second::engine::{Engine, Wrong};
use second::generate::Kind;
use second::script::Call;

const WRONG: [Wrong; 12] = [
    Wrong::MarkBeforeLook,
    Wrong::SwapByValue,
    Wrong::ReleaseBeforeMark,
    Wrong::FreeThoughHelped,
    Wrong::FreeThoughHeld,
    Wrong::HelpedFromStepFour,
    Wrong::OwnReading,
    Wrong::EveryCommitCounts,
    Wrong::OwnSheetCounts,
    Wrong::NotTakenOfWorn,
    Wrong::WornAtStepFour,
    Wrong::LogsOverlap,
];

/// How many random histories are made, at most, until a wrong engine is
/// caught.
const HISTORIES: u64 = 4_000;
const CALLS: u32 = 300;

#[test]
fn right_engine_in_narrow_histories() {
    for seed in 0..HISTORIES {
        let result = random_history(Wrong::Nothing, seed, Kind::Narrow, CALLS);
        assert_eq!(result, Ok(()), "seed {seed}");
    }
}

#[test]
fn right_engine_in_wide_histories() {
    for seed in 0..HISTORIES {
        let result = random_history(Wrong::Nothing, seed, Kind::Wide, CALLS);
        assert_eq!(result, Ok(()), "seed {seed}");
    }
}

/// The first random history in which a wrong engine breaks demand 3, or
/// tells a wrong number of fillings or a wrong answer.
fn caught(wrong: Wrong, kind: Kind) -> Option<(u64, Broken)> {
    (0..HISTORIES).find_map(|seed| {
        let broken = random_history(wrong, seed, kind, CALLS).err()?;
        Some((seed, broken))
    })
}

/// In each kind of history; but the jobs of narrow ones are too short for
/// logs to meet.
#[test]
fn random_histories_catch_every_wrong_engine() {
    for wrong in WRONG {
        for kind in [Kind::Narrow, Kind::Wide] {
            if (wrong, kind) == (Wrong::LogsOverlap, Kind::Narrow) {
                continue;
            }
            let found = caught(wrong, kind);
            println!("{wrong:?}, {kind:?}: {found:?}");
            assert!(found.is_some(), "{wrong:?} is not caught");
        }
    }
}

/// One entry of a fixed schedule; workers and locks as in a script.
enum Do {
    /// The setup once more, the lock with this starting turn.
    StartAt(u32),
    Begin(u32, Vec<u8>),
    Step(u32, u32),
    Collect(u32),
    Drop(u32),
}
use Do::{Begin, Collect, Drop, StartAt, Step};

/// Makes a fixed schedule under the checker: one lock, words 5 and 9.
fn scheduled(wrong: Wrong, schedule: &[Do]) -> Result<(), Broken> {
    let mut checker = Checker::new(Engine::wrong(wrong));
    let starting_at = |turn| Call::Setup(setup(&[0, 0], &[5, 9], &[turn]));
    checker.call(&starting_at(0))?;
    for entry in schedule {
        let call = match entry {
            &StartAt(turn) => starting_at(turn),
            Begin(worker, record) => Call::Begin {
                worker: *worker,
                lock: 0,
                record: record.clone(),
            },
            &Step(worker, times) => Call::Step { worker, times },
            &Collect(worker) => Call::Collect(worker),
            &Drop(worker) => Call::Drop(worker),
        };
        let outcome = checker.call(&call)?;
        let ended = matches!(entry, Step(_, 1000));
        let expected = if ended { Some(4) } else { None };
        assert_eq!(outcome.refusal.map(|refusal| refusal.number), expected);
    }
    checker.close()
}

/// Holds a schedule against the right engine and the wrong one.
fn only_wrong_is_caught(wrong: Wrong, schedule: &[Do], broken: &str) {
    assert_eq!(scheduled(Wrong::Nothing, schedule), Ok(()));
    let found = scheduled(wrong, schedule).expect_err("it is caught");
    assert!(found.contains(broken), "{found}");
}

/// Adds 1 to word 0: 8 steps to run.
fn add_one() -> Vec<u8> {
    job(&[
        [2, 0, 0, 0],
        [1, 1, 1, 0],
        [5, 0, 1, 0],
        [3, 0, 0, 0],
        [0, 1, 0, 0],
    ])
}

/// Stores 0 in word 1: 4 steps to run.
fn clear_other() -> Vec<u8> {
    job(&[[3, 0, 1, 0], [0, 0, 0, 0]])
}

/// A helper finishes between the reading of the mark and the look.
#[test]
fn mark_before_look_on_schedule() {
    let schedule = [
        Begin(0, add_one()),
        Step(0, 3),
        Begin(1, clear_other()),
        Step(1, 1000),
        Step(0, 1000),
        Collect(0),
    ];
    only_wrong_is_caught(Wrong::MarkBeforeLook, &schedule, "told answer 3, not 1");
}

/// The "6 then 5" late helper: it undoes the job that has run.
#[test]
fn swap_by_value_on_schedule() {
    let six_then_five = job(&[
        [1, 0, 6, 0],
        [3, 0, 0, 0],
        [1, 0, 5, 0],
        [3, 0, 0, 0],
        [0, 1, 0, 0],
    ]);
    let schedule = [
        Begin(0, six_then_five),
        Step(0, 2),
        Begin(1, clear_other()),
        Step(1, 4),
        Step(0, 1000),
        Collect(0),
        Step(1, 1),
    ];
    only_wrong_is_caught(Wrong::SwapByValue, &schedule, "words [0, 1] are [6, 9]");
}

/// The owner looks again when a helper has released but not yet marked.
#[test]
fn release_before_mark_on_schedule() {
    let schedule = [
        Begin(0, clear_other()),
        Step(0, 2),
        Begin(1, add_one()),
        Step(1, 6),
        Step(0, 1000),
        Collect(0),
    ];
    only_wrong_is_caught(Wrong::ReleaseBeforeMark, &schedule, "told answer 3, not 2");
}

/// The owner finishes under a helper, and another begin takes the sheet: the
/// helper runs a job that has not won.
#[test]
fn free_though_helped_on_schedule() {
    let schedule = [
        Begin(0, add_one()),
        Step(0, 2),
        Begin(1, add_one()),
        Step(1, 1),
        Step(0, 1000),
        Collect(0),
        Begin(2, clear_other()),
        Step(1, 1000),
    ];
    only_wrong_is_caught(
        Wrong::FreeThoughHelped,
        &schedule,
        "words [0, 1] are [6, 0]",
    );
}

/// The owner is dropped while its lock is held, and another begin takes the
/// sheet: whoever helps runs the wrong job.
#[test]
fn free_though_held_on_schedule() {
    let schedule = [
        Begin(0, add_one()),
        Step(0, 2),
        Drop(0),
        Begin(1, clear_other()),
        Begin(2, add_one()),
        Step(2, 1000),
        Collect(2),
    ];
    only_wrong_is_caught(Wrong::FreeThoughHeld, &schedule, "words [0, 1] are [5, 0]");
}

/// A sheet seen at step 3 is taken again before step 4 turns to it.
#[test]
fn helped_from_step_four_on_schedule() {
    let schedule = [
        Begin(0, add_one()),
        Begin(1, add_one()),
        Step(1, 1),
        Step(0, 2),
        Step(1, 2),
        Step(0, 1000),
        Begin(2, clear_other()),
        Step(1, 1000),
    ];
    only_wrong_is_caught(
        Wrong::HelpedFromStepFour,
        &schedule,
        "words [0, 1] are [6, 0]",
    );
}

/// A helper has swapped before the owner reads.
#[test]
fn own_reading_on_schedule() {
    let schedule = [
        Begin(0, add_one()),
        Step(0, 4),
        Begin(1, clear_other()),
        Step(1, 8),
        Step(0, 1000),
        Collect(0),
    ];
    only_wrong_is_caught(Wrong::OwnReading, &schedule, "words [0, 1] are [7, 9]");
}

/// Of add_one's two entries the owner fills the first, and is dropped; the
/// helper finds it filled, and fills the second.
#[test]
fn fillings_on_schedule() {
    let schedule = [
        Begin(0, add_one()),
        Step(0, 6),
        Drop(0),
        Begin(1, clear_other()),
        Step(1, 1000),
        Collect(1),
    ];
    only_wrong_is_caught(
        Wrong::EveryCommitCounts,
        &schedule,
        "tells 2 fillings, not 1",
    );
    only_wrong_is_caught(Wrong::OwnSheetCounts, &schedule, "tells 0 fillings, not 1");
}

/// The lock is worn when worker 1 looks.
#[test]
fn not_taken_of_worn_on_schedule() {
    let schedule = [
        StartAt(67_108_863),
        Begin(0, add_one()),
        Begin(1, add_one()),
        Step(0, 1000),
        Step(1, 1),
        Collect(1),
    ];
    only_wrong_is_caught(Wrong::NotTakenOfWorn, &schedule, "told answer 3, not 4");
}

/// Worker 1 lost its grab; it looks again when the lock is worn.
#[test]
fn worn_at_step_four_on_schedule() {
    let schedule = [
        StartAt(67_108_863),
        Begin(0, add_one()),
        Begin(1, add_one()),
        Step(1, 1),
        Step(0, 1000),
        Step(1, 1000),
        Collect(1),
    ];
    only_wrong_is_caught(Wrong::WornAtStepFour, &schedule, "told answer 4, not 3");
}

/// The same, but the lock is worn only after worker 1 has looked again.
#[test]
fn worn_since_step_three_on_schedule() {
    let schedule = [
        StartAt(67_108_862),
        Begin(0, add_one()),
        Begin(1, add_one()),
        Step(1, 1),
        Step(0, 1000),
        Collect(0),
        Step(1, 2),
        Begin(0, add_one()),
        Step(0, 1000),
        Step(1, 1000),
        Collect(1),
    ];
    only_wrong_is_caught(Wrong::WornAtStepFour, &schedule, "told answer 4, not 3");
}

/// The 33rd entry of a log is the first of the next sheet's.
#[test]
fn logs_overlap_on_schedule() {
    let schedule = [
        Begin(0, job(&repeated([3, 0, 0, 0], 64))),
        Step(0, 4 + 33 * 3),
    ];
    only_wrong_is_caught(
        Wrong::LogsOverlap,
        &schedule,
        "sheet 1 has 1 entries of 0 fillings",
    );
}

/// Two jobs of the longest run, 190 steps: stores, and cams that match, on a
/// word that the first store made 0.
fn longest_jobs() -> [Vec<u8>; 2] {
    [[3, 0, 0, 0], [4, 0, 0, 0]].map(|change| {
        let mut program = repeated(change, 64);
        program[0] = [3, 0, 0, 0];
        job(&program)
    })
}

/// The longest job, left off at every place from its grab to its release: a
/// try that begins then completes it in just 193 steps, whether its owner is
/// dropped or goes on after it, to its own 196.
#[test]
fn the_longest_job_is_completed_from_anywhere() {
    for longest in longest_jobs() {
        for steps in 2..196 {
            let begun = || vec![Begin(0, longest.clone()), Step(0, steps)];
            let help = || vec![Begin(1, clear_other()), Step(1, 193), Collect(1)];
            let go_on = vec![Step(0, 196 - steps), Collect(0)];
            let dropped = [begun(), vec![Drop(0)], help()];
            let overtaken = [begun(), help(), go_on];
            for schedule in [dropped, overtaken] {
                let schedule: Vec<Do> = schedule.into_iter().flatten().collect();
                assert_eq!(scheduled(Wrong::Nothing, &schedule), Ok(()), "{steps}");
            }
        }
    }
}

/// The same where its helper is left off too: a second one completes it.
#[test]
fn the_longest_job_is_completed_after_a_helper() {
    for longest in longest_jobs() {
        for steps in 2..196 {
            for helping in [1, steps / 2, 192] {
                let schedule = [
                    Begin(0, longest.clone()),
                    Step(0, steps),
                    Begin(1, add_one()),
                    Step(1, helping),
                    Drop(0),
                    Drop(1),
                    Begin(2, clear_other()),
                    Step(2, 193),
                    Collect(2),
                ];
                assert_eq!(scheduled(Wrong::Nothing, &schedule), Ok(()), "{steps}");
            }
        }
    }
}

/// The list holds the tries that won, in the order of their turns; a dropped
/// one stays in it, one that helped is not in it.
#[test]
fn lists_are_kept() {
    let mut checker = Checker::new(Engine::blank());
    let times = 1000;
    let record = add_one();
    let begin = |worker| Call::Begin {
        worker,
        lock: 0,
        record: record.clone(),
    };
    let calls = [
        Call::Setup(setup(&[0, 0], &[5, 9], &[7])),
        begin(0),
        begin(1),
        Call::Step {
            worker: 1,
            times: 5,
        },
        Call::Drop(1),
        Call::Step { worker: 0, times },
        Call::Collect(0),
        begin(0),
        Call::Step { worker: 0, times },
    ];
    for call in &calls {
        checker.call(call).unwrap();
    }
    assert_eq!(checker.list(0), [1, 2]);
    assert_eq!(checker.engine().read_word(0).unwrap().value, 7);
    assert_eq!(checker.engine().read_lock(0).unwrap().turn, 9);
    checker.close().unwrap();
}
