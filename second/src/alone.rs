//! A job alone: the same program on the words' plain values, without log,
//! change counts or helpers. The checker holds histories against it, and the
//! plain engine runs it.

use crate::engine::{Engine, Instruction};

/// How a job alone ended.
#[derive(Clone, Copy, PartialEq, Eq, Debug)]
pub struct Ended {
    /// The halt's answer.
    pub yes: bool,
    /// The executed instructions: the halt counts, those passed over don't.
    pub executed: u32,
}

/// Runs a job alone; the words become those at its end.
pub fn run(program: &[Instruction], words: &mut [u32]) -> Ended {
    run_watched(program, words, |_, _| {})
}

/// The words after each number of executed instructions, from none to all,
/// and how the job ended.
pub fn first_parts(program: &[Instruction], words: &[u32]) -> (Vec<Vec<u32>>, Ended) {
    let mut parts = vec![words.to_vec()];
    let mut words = words.to_vec();
    let ended = run_watched(program, &mut words, |_, after| {
        parts.push(after.to_vec());
    });
    (parts, ended)
}

/// Runs a job alone and shows, after each executed instruction, what is left
/// of the program, which falls with each one, and the words. A program without
/// a halt is none that begin takes; it ends as a no where nothing is left.
pub(crate) fn run_watched(
    program: &[Instruction],
    words: &mut [u32],
    mut after_each: impl FnMut(&[Instruction], &[u32]),
) -> Ended {
    let mut rest = program;
    let mut registers = [0u32; Engine::REGISTERS];
    let mut executed = 0;
    let mut halted = None;
    while let (None, Some((&[op, a, b, c], after))) = (halted, rest.split_first()) {
        let (ia, ib, ic) = (usize::from(a), usize::from(b), usize::from(c));
        rest = after;
        executed += 1;
        match op {
            0 => halted = Some(a == 1),
            1 => registers[ia] = u32::from(b) | u32::from(c) << 8,
            2 => registers[ia] = words[ib],
            3 => words[ib] = registers[ia],
            4 if words[ic] == registers[ia] => words[ic] = registers[ib],
            5 => registers[ia] = registers[ia].wrapping_add(registers[ib]),
            6 => registers[ia] = registers[ia].wrapping_sub(registers[ib]),
            7 if registers[ia] == registers[ib] => rest = after.get(ic..).unwrap_or(&[]),
            _ => {}
        }
        after_each(rest, words);
    }
    let yes = halted == Some(true);
    Ended { yes, executed }
}
