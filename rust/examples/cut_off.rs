//! One worker is cut off in the middle of its job, and another finishes it.
//! scripts/examples builds and runs this.

use chantgarden::{Answer, Engine, Holder, Job, Refusal};
use std::error::Error;

/// Two locks; words 0, 1, 2 hold 5, 9, 7; lock 0 guards words 0 and 1.
const SETUP: [u8; 29] = [
    29, 0, 2, 0, 2, 3, 0, 0, 1, 5, 0, 0, 0, 9, 0, 0, 0, 7, 0, 0, 0, 0, 0, 0, 0, 0, 0, 0, 0,
];
/// Adds 1 to word 0.
const ADD: &str = "
    load r0 w0
    set r1 1
    add r0 r1
    store r0 w0
    halt yes";
/// Are words 0 and 1 equal?
const EQUAL: &str = "
    load r0 w0
    load r1 w1
    skip to equal if r0 = r1
    halt no
    equal: halt yes";

/// Begins a job under lock 0, steps it to its end and collects the answer.
fn try_job(engine: &mut Engine, worker: u32, job: &Job) -> Result<(), Refusal> {
    engine.begin(worker, 0, job.record())?;
    while engine.step(worker).is_ok() {}
    let told = engine.collect(worker)?;
    let answer = match told.answer {
        Answer::RanYes => "ran, yes",
        Answer::RanNo => "ran, no",
        Answer::NotTaken => "not taken",
        Answer::Worn => "worn",
    };
    let (steps, filled) = (told.steps, told.filled);
    println!("worker {worker}: {answer}, after {steps} steps; log entries filled: {filled}");
    Ok(())
}

fn tell(engine: &Engine) -> Result<(), Refusal> {
    let word = engine.read_word(0)?;
    let lock = engine.read_lock(0)?;
    let (value, count, turn) = (word.value, word.count, lock.turn);
    let held = match lock.holder {
        Holder::Free => "free",
        Holder::Sheet(_) => "held",
    };
    println!("word 0 is {value}, count {count}; lock 0 is {held}, turn {turn}");
    Ok(())
}

fn main() -> Result<(), Box<dyn Error>> {
    let (add, equal): (Job, Job) = (ADD.parse()?, EQUAL.parse()?);
    let mut engine = Engine::blank();
    engine.setup(&SETUP)?;
    engine.begin(0, 0, add.record())?;
    // Its 6th step and its 10th fill the two entries of its log, so that its
    // helper fills none.
    for _ in 0..10 {
        engine.step(0)?;
    }
    engine.drop_worker(0)?;
    println!("worker 0: cut off after 10 steps");
    tell(&engine)?;
    try_job(&mut engine, 1, &equal)?;
    tell(&engine)?;
    try_job(&mut engine, 1, &equal)?;
    tell(&engine)?;
    Ok(())
}
