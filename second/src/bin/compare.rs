//! Holds this program against another one: random scripts through both,
//! every line equal. Script number i of a run is the one of `generate` with
//! SEED + i. Several are joined into one script for the other program, since
//! a later setup starts afresh. The scripts at the language's edges go first.

use second::compare::{self, Asked, Fault};
use second::generate::{self, Random};
use second::script::{self, LONGEST_SCRIPT};
use std::process::ExitCode;
use std::time::{Duration, Instant};

fn main() -> ExitCode {
    compare::program("difference.script", compare_all)
}

/// Compares all scripts; tells the number of lines, or the first difference.
fn compare_all(asked: &Asked) -> Result<String, String> {
    let scripts = asked.inputs;
    let mut lines = 0;
    for script in generate::edge_scripts() {
        lines += compare_one(asked, &script)?;
    }
    let malformed = generate::malformed();
    let mut random = Random::new(asked.seed);
    let mut told = Instant::now();
    let mut done = 0;
    let mut next = generate::history(asked.seed);
    while done < scripts {
        let mut joined = Vec::new();
        let ending = ending(&mut random, &malformed);
        while done < scripts && joined.len() + next.len() + ending.len() <= LONGEST_SCRIPT {
            joined.append(&mut next);
            done += 1;
            next = generate::history(asked.seed.wrapping_add(done));
        }
        joined.extend(ending);
        lines += compare_one(asked, &joined)?;
        if told.elapsed() >= Duration::from_secs(1) {
            told = Instant::now();
            eprintln!("compare: {done} of {scripts} scripts, {lines} lines equal so far");
        }
    }
    Ok(format!("{scripts} scripts, {lines} lines, all equal"))
}

/// How a joined script ends: mostly with a line that is not of the form and
/// a good one after it, which must not be reached.
fn ending(random: &mut Random, malformed: &[Vec<u8>]) -> Vec<u8> {
    let mut ending = Vec::new();
    if !random.one_in(4) {
        let chosen = random.below(malformed.len() as u32) as usize;
        ending.extend(&malformed[chosen]);
        ending.push(b'\n');
    }
    ending.extend(b"word 0");
    if random.one_in(2) {
        ending.push(b'\n');
    }
    ending
}

/// Runs one script through both; gives the number of lines they both write.
fn compare_one(asked: &Asked, text: &[u8]) -> Result<usize, String> {
    let ours = script::run(text).into_bytes();
    match compare::hold(&asked.program, text, &ours) {
        Ok(()) => Ok(script::lines(&ours).len()),
        Err(Fault { words, equal }) => {
            let kept = shortened(text, &ours, equal);
            let saved = compare::save("script", &kept, &asked.saved);
            Err(format!("{words}\n{saved}"))
        }
    }
}

/// The script, cut off after the line that shows the difference where that
/// line can be told from what was written.
fn shortened(text: &[u8], ours: &[u8], equal: Option<usize>) -> Vec<u8> {
    let number = equal.and_then(|equal| {
        let ours = script::lines(ours);
        let number = ours.get(equal)?.split(|&byte| byte == b' ').next()?;
        std::str::from_utf8(number).ok()?.parse::<usize>().ok()
    });
    let lines = script::lines(text);
    match number {
        Some(last) if 0 < last && last <= lines.len() => lines[..last].join(&b'\n'),
        _ => text.to_vec(),
    }
}
