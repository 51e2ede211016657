//! Random call files (request 01): recorded histories, good ones, damaged
//! ones and cut ones, and now and then one of the longest length or above it.

use super::{set_length, Generator, Kind, Random, SHORTEST_JOB};
use crate::engine::Engine;
use crate::files::{call_record, LONGEST_FILE};
use crate::script::{perform, Call};

/// One file, the same from the same seed.
pub fn file(seed: u64) -> Vec<u8> {
    let mut draft = Draft::new(seed);
    if draft.random.one_in(50) {
        return draft.longest();
    }
    draft.set_up();
    let most = draft.random.pick(&[4, 40, 300]);
    let calls = draft.random.below(most);
    draft.make_calls(calls);
    match draft.random.below(8) {
        0..=2 => draft.damage_a_call(),
        3 => draft.damage_setup(),
        _ => {}
    }
    let mut file = draft.records.concat();
    if draft.random.one_in(8) {
        draft.damage_bytes(&mut file);
    }
    if draft.random.one_in(5) {
        draft.cut(&mut file);
    }
    file
}

/// A file in the making. Its records stand apart, the setup first, so that
/// one of them can be damaged.
struct Draft {
    random: Random,
    generator: Generator,
    /// The state that the recorded calls gave.
    engine: Engine,
    records: Vec<Vec<u8>>,
    /// The number of bytes in all records.
    length: usize,
}

/// Room for what one call of the generator records, at most a whole try step
/// by step and the step that is refused after it, and for a begin.
const ROOM: usize = 8 * (Engine::LONGEST_TRY as usize + 1) + 8 + 4 * Engine::INSTRUCTIONS;

/// Good files.
impl Draft {
    fn new(seed: u64) -> Draft {
        let mut random = Random::new(!seed);
        let kind = random.pick(&[Kind::Wide, Kind::Wide, Kind::Wide, Kind::Narrow]);
        let mut generator = Generator::new(seed, kind);
        // A script may have calls before its setup, a file may not.
        generator.waiting.clear();
        Draft {
            random,
            generator,
            engine: Engine::blank(),
            records: Vec::new(),
            length: 0,
        }
    }

    fn set_up(&mut self) {
        let record = self.generator.setup_record();
        self.engine.setup(&record).expect("it is a good one");
        self.length = record.len();
        self.records.push(record);
    }

    /// Up to so many calls of the generator, while there is room for them.
    fn make_calls(&mut self, calls: u32) {
        for _ in 0..calls {
            if self.length + ROOM > LONGEST_FILE {
                return;
            }
            let call = if self.random.one_in(20) {
                self.any_numbers()
            } else {
                self.generator.next(&self.engine)
            };
            match call {
                Call::Step { worker, times } => self.make_steps(worker, times),
                call => _ = self.make(&call),
            }
        }
    }

    /// A call with any number that a record has room for.
    fn any_numbers(&mut self) -> Call {
        let worker = u32::from(self.random.byte());
        match self.random.below(4) {
            0 => Call::Step { worker, times: 1 },
            1 => Call::Collect(worker),
            2 => Call::Drop(worker),
            _ => Call::Begin {
                worker: self.generator.idle_worker(&self.engine),
                lock: u32::from(self.random.byte()),
                record: SHORTEST_JOB.to_vec(),
            },
        }
    }

    /// Up to so many steps, until one is refused.
    fn make_steps(&mut self, worker: u32, times: u32) {
        let step = Call::Step { worker, times: 1 };
        for _ in 0..times {
            if !self.make(&step) {
                return;
            }
        }
    }

    /// Makes a call that has a record, and records it; whether it was
    /// accepted.
    fn make(&mut self, call: &Call) -> bool {
        let Some(record) = call_record(call) else {
            return false;
        };
        self.length += record.len();
        self.records.push(record);
        perform(&mut self.engine, call).refusal.is_none()
    }

    /// A file of just the longest length, or of more. With two words above a
    /// multiple of 4 the setup's length is such a multiple, as that of every
    /// call record is, and the records come out even.
    fn longest(&mut self) -> Vec<u8> {
        let words = &mut self.generator.style.words;
        *words = (*words - 1) / 4 * 4 + 2;
        self.set_up();
        let calls = self.random.pick(&[20, 20_000]);
        self.make_calls(calls);
        self.fill();
        let above = self.random.pick(&[0, 0, 0, 1, 1, 8, LONGEST_FILE]);
        // Too long comes before whatever is wrong with the setup.
        if above > 0 && self.random.one_in(2) {
            self.damage_setup();
        }
        let mut file = self.records.concat();
        file.resize(LONGEST_FILE + above, 0);
        file
    }

    /// Steps up to the longest length, and a begin where 12 bytes are left.
    fn fill(&mut self) {
        while self.length < LONGEST_FILE {
            let worker = self.random.below(9);
            if self.length + 12 == LONGEST_FILE {
                let record = SHORTEST_JOB.to_vec();
                let lock = 0;
                self.make(&Call::Begin {
                    worker,
                    lock,
                    record,
                });
            } else {
                self.make_steps(worker, 1);
            }
        }
    }
}

/// Damaged files.
impl Draft {
    fn damage_setup(&mut self) {
        if self.random.one_in(5) {
            damage_field(&mut self.random, &mut self.records[0]);
        } else {
            self.generator.damage_setup(&mut self.records[0]);
        }
    }

    /// Damages one call record; mostly others stand after it, which the walk
    /// must not reach.
    fn damage_a_call(&mut self) {
        self.make(&Call::Collect(0));
        let calls = self.records.len() as u32 - 1;
        let damaged = 1 + self.random.below(calls) as usize;
        if self.random.one_in(3) {
            self.records.truncate(damaged + 1);
        }
        let mut record = std::mem::take(&mut self.records[damaged]);
        let way = self.random.below(5);
        if way <= 2 {
            self.damage_head(&mut record);
        }
        if way >= 2 {
            self.damage_length(&mut record);
        }
        self.records[damaged] = record;
    }

    /// Makes the head of a call record wrong, or perhaps only another one.
    fn damage_head(&mut self, record: &mut Vec<u8>) {
        match self.random.below(6) {
            0 => record[2] = self.random.pick(&[0, 1, 2, 4, 255]),
            1 => record[3] = self.random.pick(&[1, 255]),
            2 => record[4] = self.random.pick(&[4, 5, 128, 255]),
            3 => record[4] = self.random.below(4) as u8,
            4 => record[7] = self.random.pick(&[1, 255]),
            _ => {
                // A lock where none is used.
                record.truncate(8);
                set_length(record);
                record[4] = 1 + self.random.below(3) as u8;
                record[6] = self.random.pick(&[1, 255]);
            }
        }
    }

    /// Makes the length of a call record wrong, or perhaps only another one.
    fn damage_length(&mut self, record: &mut Vec<u8>) {
        let length = match self.random.below(8) {
            0 | 1 => return self.generator.damage_record(record),
            2 => return damage_field(&mut self.random, record),
            3 => self.random.pick(&[4, 5, 6, 7]),
            4 => self.random.pick(&[9, 10, 11, 12]),
            5 => record.len() + self.random.below(5) as usize,
            _ => {
                // A begin: of no instructions, as many as may be, or more.
                record[4] = 0;
                8 + 4 * self.random.pick(&[0, 1, 32, 33, 64, 65, 66, 128])
            }
        };
        record.resize(length, 0);
        set_length(record);
    }

    /// Changes, inserts and removes bytes anywhere.
    fn damage_bytes(&mut self, file: &mut Vec<u8>) {
        for _ in 0..1 + self.random.below(3) {
            let place = self.random.below(file.len() as u32 + 1) as usize;
            let byte = self.random.byte();
            match self.random.below(3) {
                0 if place < file.len() => file[place] = byte,
                1 if place < file.len() => _ = file.remove(place),
                _ => file.insert(place, byte),
            }
        }
    }

    /// Cuts a file: among its first bytes, in its setup, at a record's edge,
    /// in its last record or anywhere.
    fn cut(&mut self, file: &mut Vec<u8>) {
        let kept = 1 + self.random.below(self.records.len() as u32) as usize;
        let edge = self.records[..kept].concat().len();
        let back = 1 + self.random.below(12) as usize;
        let any = self.random.below(file.len() as u32 + 1) as usize;
        let length = match self.random.below(8) {
            0 => any % 4,
            1 | 2 => any % (self.records[0].len() + 1),
            3 => edge,
            4 | 5 => file.len().saturating_sub(back),
            _ => any,
        };
        file.truncate(length);
    }
}

/// Makes a record's length field another one, and the record stays as long.
fn damage_field(random: &mut Random, record: &mut [u8]) {
    let field: u16 = random.pick(&[0, 1, 2, 3, 4, 7, 9, 12, 256, 65_535]);
    record[..2].copy_from_slice(&field.to_le_bytes());
}
