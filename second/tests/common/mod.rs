//! What the tests share: the records of document 01's table and small makers.
#![allow(dead_code)]

use second::engine::Refusal;
use second::script::{self, Call};

/// Setup S: two locks, words 5 and 9 under lock 0, word 7 under lock 1.
pub const S: &str = "1D00020002030000010500000009000000070000000000000000000000";
/// Job A adds 1 to word 0.
pub const A: &str = "180001000200000001010100050001000300000000010000";
/// Job B: are words 0 and 1 equal?
pub const B: &str = "180001000200000002010100070001010000000000010000";

/// The halt that answers no.
pub const HALT: [u8; 4] = [0, 0, 0, 0];

/// The refusal's number and place; (0, 0) where there is none.
pub fn numbers<T>(result: Result<T, Refusal>) -> (u32, u32) {
    result.err().map_or((0, 0), |no| (no.number, no.place))
}

/// The bytes of a record that is written in hexadecimal.
pub fn bytes(record: &str) -> Vec<u8> {
    match script::parse(format!("setup {record}").as_bytes()) {
        Some(Call::Setup(bytes)) => bytes,
        _ => panic!("{record}"),
    }
}

/// A job record of these instructions, kind 1 up to 32 of them, else kind 4.
pub fn job(program: &[[u8; 4]]) -> Vec<u8> {
    let kind = if program.len() <= 32 { 1 } else { 4 };
    job_of_kind(kind, program)
}

/// The same of any kind and count, whether there is such a record or not.
pub fn job_of_kind(kind: u16, program: &[[u8; 4]]) -> Vec<u8> {
    let length = 4 + 4 * program.len() as u16;
    let mut record = [length.to_le_bytes(), kind.to_le_bytes()].concat();
    record.extend(program.concat());
    record
}

/// A program of so many instructions: the same one again and again, then a
/// halt that answers no.
pub fn repeated(instruction: [u8; 4], count: usize) -> Vec<[u8; 4]> {
    let mut program = vec![instruction; count - 1];
    program.push(HALT);
    program
}

/// A setup record.
pub fn setup(guards: &[u8], values: &[u32], turns: &[u32]) -> Vec<u8> {
    let length = 6 + 5 * values.len() + 4 * turns.len();
    let mut record = vec![length as u8, (length >> 8) as u8, 2, 0];
    record.extend([turns.len() as u8, values.len() as u8]);
    record.extend(guards);
    record.extend(values.iter().flat_map(|value| value.to_le_bytes()));
    record.extend(turns.iter().flat_map(|turn| turn.to_le_bytes()));
    record
}

/// Runs `line => outcome` pairs, one a line, as one script on the blank
/// state and holds what is written against the outcomes. S, A and B stand
/// for their records.
pub fn expect(pairs: &str) {
    let mut text = String::new();
    let mut wanted = String::new();
    let lines = pairs.lines().map(str::trim).filter(|line| !line.is_empty());
    for (index, pair) in lines.enumerate() {
        let (call, outcome) = pair.split_once(" => ").expect(pair);
        let words = call.split(' ').map(|word| match word {
            "S" => S,
            "A" => A,
            "B" => B,
            other => other,
        });
        text += &words.collect::<Vec<_>>().join(" ");
        text.push('\n');
        wanted += &format!("{} {outcome}\n", index + 1);
    }
    assert_eq!(script::run(text.as_bytes()), wanted, "\n{text}");
}
