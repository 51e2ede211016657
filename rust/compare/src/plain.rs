//! The archive's plain engine held against the second program's, at the edges
//! and on random jobs and tables. Every field of the answer and every value
//! left is equal, and what lies around the values is as it was.

use crate::edges::{zeros, LENGTHS};
use crate::told::{parts, AROUND};
use crate::PROGRESS;
use chantgarden::lent::{self, Plain};
use second::alone::Ended;
use second::engine::{Answer, Engine, Refusal};
use second::generate::plain::{given, Given, LONGEST_TABLE};
use second::script::hex;
use second::{job, plain};

/// A plain engine, with its answer as the header has it.
pub type PlainEngine = dyn Fn(&mut [u32], &[u8], u32, &[u8]) -> Plain;

/// The archive's.
pub fn archive(values: &mut [u32], guards: &[u8], lock: u32, record: &[u8]) -> Plain {
    lent::plain(values, guards, lock, record)
}

/// The second program's.
fn second(values: &mut [u32], guards: &[u8], lock: u32, record: &[u8]) -> Plain {
    told(plain::run(values, guards, lock, record))
}

/// What the second program told, in the header's terms.
fn told(result: Result<Ended, Refusal>) -> Plain {
    let (number, place, ended) = parts(result);
    let answer = ended.map(|ended| match ended.yes {
        true => Answer::RanYes,
        false => Answer::RanNo,
    });
    Plain {
        number,
        place,
        answer: answer.map_or(0, Answer::number),
        executed: ended.map_or(0, |ended| ended.executed),
    }
}

/// What lies around a lent table.
const UNTOUCHED: u32 = 0xA5A5_A5A5;

/// Lends the values; gives the answer, and the values with what lies around
/// them.
fn on_lent(given: &Given, engine: &PlainEngine) -> (Plain, Vec<u32>) {
    let words = given.values.len();
    let mut whole = vec![UNTOUCHED; AROUND + words + AROUND];
    let values = &mut whole[AROUND..AROUND + words];
    values.copy_from_slice(&given.values);
    let answer = engine(values, &given.guards, given.lock, &given.record);
    (answer, whole)
}

/// How many runs, all equal, ended in which way.
#[derive(Debug, Default)]
pub struct Runs {
    /// Those that gave each answer; at 0 those refused.
    pub answers: [u64; 3],
    /// Those refused with each number; at 0 those that ran.
    pub told: [u64; 17],
}

impl Runs {
    fn count(&self) -> u64 {
        self.told.iter().sum()
    }

    /// One run of both engines.
    fn compare(&mut self, given: &Given, engine: &PlainEngine) -> Result<(), String> {
        let (ours, theirs) = (on_lent(given, &second), on_lent(given, engine));
        if ours != theirs {
            return Err(difference(given, ours, theirs));
        }
        let Plain { number, answer, .. } = ours.0;
        self.answers[answer as usize] += 1;
        self.told[number as usize] += 1;
        Ok(())
    }
}

/// What was given, of tables that are too long only the first part; what was
/// told, and which value is the first that differs, if one does.
fn difference(given: &Given, ours: (Plain, Vec<u32>), theirs: (Plain, Vec<u32>)) -> String {
    let (words, guards) = (given.values.len(), given.guards.len());
    let values = &given.values[..words.min(LONGEST_TABLE)];
    let guarded = &given.guards[..guards.min(LONGEST_TABLE)];
    let (lock, record) = (given.lock, hex(&given.record));
    let (ours, left) = ours;
    let (theirs, also_left) = theirs;
    let mut both = left.iter().zip(&also_left);
    let value = match both.position(|(ours, theirs)| ours != theirs) {
        None => String::new(),
        Some(at) => {
            let (ours, theirs) = (left[at], also_left[at]);
            let place = at as i64 - AROUND as i64;
            format!("\nvalue {place}: {ours}, archive: {theirs}")
        }
    };
    format!("{words} values {values:?}, {guards} guards {guarded:?}, lock {lock}, record {record}\nsecond:  {ours:?}\narchive: {theirs:?}{value}")
}

/// The runs at the edges, then as many random ones from this seed on; tells
/// how they ended.
pub fn compare(
    seed: u64,
    runs: u64,
    engine: &PlainEngine,
    told: impl Fn(u64),
) -> Result<String, String> {
    let edges = at_the_edges(engine)?.count();
    let random = at_random(seed, runs, engine, told)?;
    let [_, yes, no] = random.answers;
    let refused = [5, 6, 7, 8, 16].map(|number| {
        let times = random.told[number];
        format!("refused {number}: {times}")
    });
    let refused = refused.join(", ");
    Ok(format!("{runs} random plain runs and {edges} at the edges, all equal; of the random ones ran yes: {yes}, ran no: {no}, {refused}"))
}

/// Random runs, number i of them the one of seed + i.
fn at_random(
    seed: u64,
    runs: u64,
    engine: &PlainEngine,
    told: impl Fn(u64),
) -> Result<Runs, String> {
    let mut random = Runs::default();
    for run in 0..runs {
        let seed = seed.wrapping_add(run);
        let compared = random.compare(&given(seed), engine);
        compared.map_err(|no| format!("run of seed {seed}: {no}"))?;
        if (run + 1).is_multiple_of(PROGRESS) {
            told(run + 1);
        }
    }
    Ok(random)
}

/// Runs that random ones don't come to, or not to all of them.
fn at_the_edges(engine: &PlainEngine) -> Result<Runs, String> {
    let mut runs = Runs::default();
    compare_tables(&mut runs, engine)?;
    compare_records(&mut runs, engine)?;
    compare_locks(&mut runs, engine)?;
    compare_instructions(&mut runs, engine)?;
    Ok(runs)
}

const YES: [u8; 4] = [0, 1, 0, 0];

/// A job record of these instructions.
fn job_record(program: &[[u8; 4]]) -> Vec<u8> {
    job::record(&program.concat()).expect("so many make a job")
}

/// So many words under lock 7, and under another one every fourth.
fn tables(words: usize, guards: usize) -> Given {
    Given {
        values: (0..words as u32).collect(),
        guards: [7, 7, 7, 8].into_iter().cycle().take(guards).collect(),
        lock: 7,
        record: Vec::new(),
    }
}

/// Lengths of tables about the longest one, and such as would be within it if
/// they were cut to a byte or two.
const TABLES: [usize; 13] = [0, 1, 2, 63, 64, 65, 66, 255, 256, 257, 320, 65_536, 65_600];

/// All pairs of these lengths, with a good record, one that names a word, and
/// one that is none.
fn compare_tables(runs: &mut Runs, engine: &PlainEngine) -> Result<(), String> {
    let records = [
        job_record(&[YES]),
        job_record(&[[1, 0, 9, 0], [3, 0, 0, 0], YES]),
        Vec::new(),
    ];
    for words in TABLES {
        for guards in TABLES {
            let mut given = tables(words, guards);
            for record in &records {
                given.record.clone_from(record);
                runs.compare(&given, engine)?;
            }
        }
    }
    Ok(())
}

/// Records of every length up to one beyond the longest job's, and of lengths
/// beyond what the length field can say, of the kinds that carry jobs and of
/// those around them.
fn compare_records(runs: &mut Runs, engine: &PlainEngine) -> Result<(), String> {
    let longest = 4 + 4 * (Engine::INSTRUCTIONS + 1);
    for kind in 0..=5 {
        for length in (0..=longest).chain(LENGTHS) {
            let record = zeros(kind, length);
            let given = Given {
                record,
                ..tables(4, 4)
            };
            runs.compare(&given, engine)?;
        }
    }
    Ok(())
}

/// Locks whose lowest byte is a guard, with nothing above it and with much: a
/// store to each word of the longest table, with every guard in turn.
fn compare_locks(runs: &mut Runs, engine: &PlainEngine) -> Result<(), String> {
    for first in [0, 64, 128, 192] {
        for word in 0..Engine::WORDS as u8 {
            for above in [0, 1, 2, 255, 256, 1 << 16, 1 << 23, (1 << 24) - 1] {
                let given = Given {
                    values: vec![5; Engine::WORDS],
                    guards: (first..=first + 63).collect(),
                    lock: 256 * above + u32::from(first + word),
                    record: job_record(&[[3, 0, word, 0], YES]),
                };
                runs.compare(&given, engine)?;
            }
        }
    }
    Ok(())
}

/// Fields of an instruction about the last register, and others.
const FIELDS: [u8; 7] = [0, 1, 2, 3, 4, 5, 255];

/// Instructions of every first byte.
fn compare_instructions(runs: &mut Runs, engine: &PlainEngine) -> Result<(), String> {
    for op in 0..=255 {
        for a in FIELDS {
            for b in FIELDS {
                for c in FIELDS {
                    compare_instruction(runs, engine, [op, a, b, c])?;
                }
            }
        }
    }
    Ok(())
}

/// An instruction in the middle of a job, with words that show what it did,
/// and at the end of one.
fn compare_instruction(
    runs: &mut Runs,
    engine: &PlainEngine,
    instruction: [u8; 4],
) -> Result<(), String> {
    let (set, stores) = ([1, 1, 2, 0], [[3, 1, 0, 0], [3, 2, 1, 0]]);
    let middle = [set, instruction, stores[0], stores[1], YES];
    let end = [stores[0], instruction];
    for record in [job_record(&middle), job_record(&end)] {
        let given = Given {
            record,
            ..tables(4, 4)
        };
        runs.compare(&given, engine)?;
    }
    Ok(())
}

#[cfg(test)]
mod tests {
    use super::*;
    use second::plain::Wrong;

    #[test]
    fn equal_runs() {
        let runs = [
            at_the_edges(&archive),
            at_random(1, 200_000, &archive, |_| ()),
        ];
        for runs in runs {
            let runs = runs.unwrap_or_else(|no| panic!("{no}"));
            assert!(runs.answers.iter().all(|&times| times >= 50), "{runs:?}");
            let numbers = [0, 5, 6, 7, 8, 16].map(|number| runs.told[number]);
            assert!(numbers.iter().all(|&times| times >= 50), "{runs:?}");
            assert_eq!(numbers.iter().sum::<u64>(), runs.count());
        }
    }

    /// The comparison is not blind: random runs tell every wrong engine that
    /// stands in the archive's place.
    #[test]
    fn wrong_plain_engines() {
        for wrong in Wrong::ALL {
            let engine = move |values: &mut [u32], guards: &[u8], lock, record: &[u8]| {
                told(wrong.run(values, guards, lock, record))
            };
            let found = at_random(1, 10_000, &engine, |_| ());
            assert!(found.is_err(), "{wrong:?} is not noticed");
        }
    }
}
