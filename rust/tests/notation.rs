//! The notation held against the archive's begin, on random records and random
//! texts, each way. 10,000 of each here; by hand, with the count told:
//!
//!     NOTATION_JOBS=1000000 cargo test --release --test notation -- --nocapture

use chantgarden::job::{Fault, Faults, Instruction, Job};
use chantgarden::{Engine, Refusal};
use std::collections::HashSet;
use std::time::Instant;

/// A small generator of numbers (splitmix), the same from the same seed.
struct Random(u64);

impl Random {
    fn next(&mut self) -> u64 {
        self.0 = self.0.wrapping_add(0x9E37_79B9_7F4A_7C15);
        let mut mixed = self.0;
        mixed = (mixed ^ (mixed >> 30)).wrapping_mul(0xBF58_476D_1CE4_E5B9);
        mixed = (mixed ^ (mixed >> 27)).wrapping_mul(0x94D0_49BB_1331_11EB);
        mixed ^ (mixed >> 31)
    }

    /// A number below this one, which is at least 1.
    fn below(&mut self, limit: usize) -> usize {
        (((self.next() >> 32) * limit as u64) >> 32) as usize
    }

    fn one_in(&mut self, times: usize) -> bool {
        self.below(times) == 0
    }

    fn byte(&mut self, limit: usize) -> u8 {
        self.below(limit) as u8
    }

    fn pick<'a>(&mut self, choices: &[&'a str]) -> &'a str {
        choices[self.below(choices.len())]
    }
}

/// How many jobs are tried.
fn many() -> usize {
    let asked = std::env::var("NOTATION_JOBS").ok();
    asked.map_or(10_000, |many| {
        many.parse().expect("NOTATION_JOBS is a number")
    })
}

/// One lock, which guards 64 words.
fn engine() -> Engine {
    let mut setup = [330_u16, 2].map(u16::to_le_bytes).concat();
    setup.extend([1, 64]);
    setup.resize(330, 0);
    let mut engine = Engine::blank();
    assert_eq!(engine.setup(&setup), Ok(()));
    engine
}

/// What begin tells of a record; its worker is idle again.
fn begun(engine: &mut Engine, record: &[u8]) -> Result<(), Refusal> {
    begun_on(engine, 0, record)
}

fn begun_on(engine: &mut Engine, lock: u32, record: &[u8]) -> Result<(), Refusal> {
    engine.begin(0, lock, record)?;
    engine.drop_worker(0)
}

/// An instruction with so many after it, most often a good one.
fn instruction(random: &mut Random, after: usize) -> [u8; 4] {
    let op = match after {
        0 => 0,
        1 => random.byte(7),
        _ => random.byte(8),
    };
    let [one, other] = [random.byte(4), random.byte(4)];
    let mut four = match op {
        0 => [0, random.byte(2), 0, 0],
        1 => [1, one, random.byte(256), random.byte(256)],
        2 | 3 => [op, one, random.byte(64), 0],
        4 => [4, one, other, random.byte(64)],
        7 => [7, one, other, 1 + random.byte(after - 1)],
        _ => [op, one, other, 0],
    };
    if random.one_in(100) {
        let field = random.below(4);
        let limit = if random.one_in(2) { 10 } else { 256 };
        four[field] = random.byte(limit);
    }
    four
}

/// A record of kind 1 or 4, most often good: one of any length, and damage.
fn record(random: &mut Random) -> Vec<u8> {
    let longest = [4, 34, 66][random.below(3)];
    let count = random.below(longest) + usize::from(!random.one_in(50));
    let kind = if count <= 32 { 1 } else { 4 };
    let mut record = [4 + 4 * count as u16, kind].map(u16::to_le_bytes).concat();
    for place in 0..count {
        record.extend(instruction(random, count - 1 - place));
    }
    if random.one_in(20) {
        let place = random.below(record.len());
        record[place] = random.byte(256);
    }
    if random.one_in(20) {
        let length = random.below(record.len() + 8);
        record.resize(length, 0);
    }
    record
}

/// What begin would refuse the record for: the first of its faults.
fn first(faults: &Faults) -> Option<Refusal> {
    let fault: &Fault = faults.0.first().expect("there is one");
    fault.refusal
}

/// A record is taken exactly where begin accepts it, and is the same after it
/// was shown and read again; of any other the same refusal is told.
#[test]
fn random_records() {
    let (mut engine, mut random) = (engine(), Random(1));
    let (mut accepted, mut refused) = (0, 0);
    let mut refusals = HashSet::new();
    let start = Instant::now();
    for _ in 0..many() {
        let record = record(&mut random);
        let told = begun(&mut engine, &record);
        match Job::from_record(&record) {
            Ok(job) => {
                assert_eq!(told, Ok(()), "{record:02x?}");
                there_and_back(&job, &record);
                accepted += 1;
            }
            Err(faults) => {
                assert_eq!(told.err(), first(&faults), "{record:02x?}: {faults}");
                refusals.extend(told.err().map(|refusal| refusal.number));
                refused += 1;
            }
        }
    }
    let time = start.elapsed().as_secs_f32();
    println!("records: {accepted} accepted and the same there and back, {refused} refused alike, {time:.1} s");
    assert!(accepted > many() / 4 && refused > many() / 20);
    assert_eq!(refusals, HashSet::from([5, 6, 7, 8]));
}

fn there_and_back(job: &Job, record: &[u8]) {
    assert_eq!(job.record(), record);
    let text = job.to_string();
    let again: Job = text.parse().unwrap_or_else(|no| panic!("{text}:\n{no}"));
    assert_eq!(again.record(), record, "{text}");
    assert_eq!(&again, job);
    assert_eq!(Job::new(job.instructions()).as_ref(), Ok(job));
}

/// The job's text as a person may write it: room, comments, labels.
fn written(random: &mut Random, job: &Job) -> String {
    let program = job.instructions();
    // The instructions that a skip goes to by a label.
    let mut ends = HashSet::new();
    let mut lines = Vec::new();
    for (place, instruction) in program.iter().enumerate() {
        let line = match instruction {
            Instruction::Skip(over, one, other) if random.one_in(2) => {
                let end = place + 1 + usize::from(*over);
                ends.insert(end);
                format!("skip to l{end} if r{one} = r{other}")
            }
            _ => instruction.to_string(),
        };
        lines.push(line);
    }
    let mut text = String::new();
    for (place, line) in lines.iter().enumerate() {
        if ends.contains(&place) {
            text += &format!(
                "l{place}:{}",
                random.pick(&["\n", " ", "\n\n", "# end\r\n"])
            );
        }
        let line = line.replace(' ', random.pick(&[" ", "  ", "\t"]));
        let line = line.replace(" = ", random.pick(&[" = ", "=", " ="]));
        text += random.pick(&["", "", "  ", "# load r9\n", "\n"]);
        text += &line;
        text += random.pick(&["\n", "\r\n", " # skip it\n", "#\n"]);
    }
    text
}

/// A text with something in it changed, which may still be good.
fn damaged(random: &mut Random, text: &str) -> String {
    let mut words: Vec<&str> = text.split_inclusive([' ', '\n']).collect();
    let others = [
        "r4 ",
        "w64 ",
        "w7 ",
        "r2 ",
        "l3 ",
        "l3:\n",
        "halt no\n",
        "halt ",
        "skip ",
        "1 ",
        "62 ",
        "= ",
        "if ",
        "to ",
        "\n",
        "# ",
        "65536 ",
        "set ",
        "a:a:",
        ": ",
    ];
    for _ in 0..1 + random.below(2) {
        let place = random.below(words.len());
        match random.below(3) {
            0 => words[place] = random.pick(&others),
            1 => words.insert(place, random.pick(&others)),
            _ => words[place] = "",
        }
    }
    words.concat()
}

/// A good record, most often with a skip in it.
fn good(random: &mut Random) -> Job {
    loop {
        if let Ok(job) = Job::from_record(&record(random)) {
            return job;
        }
    }
}

/// A text gives the job that was written in it; and whatever a damaged one
/// gives, begin accepts. Each fault of any other is one line of its own.
#[test]
fn random_texts() {
    let (mut engine, mut random) = (engine(), Random(2));
    let (mut parsed, mut faulty) = (0, 0);
    let start = Instant::now();
    for _ in 0..many() {
        let job = good(&mut random);
        let text = written(&mut random, &job);
        assert_eq!(text.parse().as_ref(), Ok(&job), "{text}");
        assert_eq!(begun(&mut engine, job.record()), Ok(()), "{text}");
        let text = damaged(&mut random, &text);
        match text.parse::<Job>() {
            Ok(job) => {
                assert_eq!(begun(&mut engine, job.record()), Ok(()), "{text}");
                there_and_back(&job, job.record());
                parsed += 1;
            }
            Err(faults) => {
                let told = faults.to_string();
                assert_eq!(told.lines().count(), faults.0.len(), "{told}");
                assert!(told.lines().all(|line| line.starts_with("line ")), "{told}");
                faulty += 1;
            }
        }
    }
    let (many, time) = (many(), start.elapsed().as_secs_f32());
    println!("texts: {many} gave the job written in them, which was accepted; of as many damaged ones {parsed} parsed and were accepted, {faulty} told their faults, {time:.1} s");
    assert!(parsed > many / 20 && faulty > many / 20);
}

/// A setup of up to three locks, and words that they guard.
fn setup(random: &mut Random) -> Vec<u8> {
    let (locks, words) = (1 + random.below(3), 1 + random.below(64));
    let length = 6 + 5 * words + 4 * locks;
    let mut setup = [length as u16, 2].map(u16::to_le_bytes).concat();
    setup.extend([locks as u8, words as u8]);
    setup.extend((0..words).map(|_| random.byte(locks)));
    setup.resize(length, 0);
    setup
}

/// Which instruction a lock would refuse is what begin then tells.
#[test]
fn random_setups() {
    let mut random = Random(4);
    let mut told = [0; 3];
    for _ in 0..many() {
        let (setup, job) = (setup(&mut random), good(&mut random));
        let lock = random.below(4) as u32;
        let mut engine = Engine::blank();
        assert_eq!(engine.setup(&setup), Ok(()));
        let begun = begun_on(&mut engine, lock, job.record());
        let (which, before) = match job.under(&setup, lock) {
            Err(refusal) => (0, Err(refusal)),
            Ok(faults) => match faults.first() {
                Some(fault) => (1, Err(fault.refusal.expect("it is refused"))),
                None => (2, Ok(())),
            },
        };
        assert_eq!(begun, before, "{setup:?} {lock}\n{job}");
        told[which] += 1;
    }
    let [none, refused, accepted] = told;
    println!("setups: {refused} jobs told the instruction that begin refuses with 8, {accepted} were accepted, {none} had no such lock");
    assert!(told.iter().all(|many_of_it| *many_of_it > many() / 20));
}

/// No run alone takes more steps than its worst case, and some take as many.
#[test]
fn random_worst_cases() {
    let (mut engine, mut random) = (engine(), Random(3));
    let mut worst = 0;
    for _ in 0..many() {
        let job = good(&mut random);
        assert_eq!(engine.begin(0, 0, job.record()), Ok(()));
        while engine.step(0).is_ok() {}
        let steps = engine.collect(0).expect("it has an answer").steps;
        assert!(steps <= job.longest_try(), "{job}");
        worst += usize::from(steps == job.longest_try());
    }
    assert!(worst > many() / 20);
}
