//! The generator of call files makes what it is for.

use second::engine::Engine;
use second::files::{walk, Ended, Walked, LONGEST_FILE};
use second::generate::files::file;
use std::collections::BTreeSet;

/// As many as the gate compares.
const FILES: u64 = 2_000;

/// The length field of the record at the start of these bytes.
fn field(bytes: &[u8]) -> usize {
    usize::from(u16::from_le_bytes([bytes[0], bytes[1]]))
}

/// Each call that was made: its call byte, how many instructions it has, then
/// its line but for the index, with a 0 where the line has four numbers.
fn calls(file: &[u8], walked: &Walked) -> Vec<[u32; 6]> {
    let mut calls = Vec::new();
    let mut place = if walked.place == 0 { 0 } else { field(file) };
    for line in walked.lines.lines() {
        if place == walked.place {
            break;
        }
        let numbers: Vec<u32> = line.split(' ').map(|word| word.parse().unwrap()).collect();
        let call = u32::from(file[place + 4]);
        let collected = call == 2 && numbers[1] == 0;
        assert_eq!(numbers.len(), if collected { 5 } else { 4 }, "{line}");
        let filled = numbers.get(4).copied().unwrap_or(0);
        let length = field(&file[place..]);
        let count = (length - 8) as u32 / 4;
        calls.push([call, count, numbers[1], numbers[2], numbers[3], filled]);
        place += length;
    }
    calls
}

/// Each call is accepted, and is refused in each way that calls reach; all
/// four answers are told, also of tries that helped, and of those that filled
/// entries in it.
#[test]
fn calls_reach_everything() {
    let mut refusals = BTreeSet::new();
    let mut answers = BTreeSet::new();
    let mut helped = 0;
    let mut filling = 0;
    let mut worn = 0;
    for seed in 0..FILES {
        let file = file(seed);
        for [call, _, refusal, answer, steps, filled] in calls(&file, &walk(&file)) {
            refusals.insert((call, refusal));
            answers.insert(answer);
            // Without a sheet to run, a try takes 4 steps at most.
            helped += u32::from(answer == 3 && steps > 4);
            filling += u32::from(answer == 3 && filled > 0);
            worn += u32::from(answer == 4);
        }
    }
    let of = |call: u32, refusals: &[u32]| -> Vec<(u32, u32)> {
        refusals.iter().map(|&refusal| (call, refusal)).collect()
    };
    let all = [
        of(0, &[0, 1, 2, 3, 4, 7, 8, 9]),
        of(1, &[0, 1, 4, 11]),
        of(2, &[0, 1, 3, 11]),
        of(3, &[0, 1, 11]),
    ];
    assert_eq!(refusals, all.concat().into_iter().collect());
    assert_eq!(answers, BTreeSet::from([0, 1, 2, 3, 4]));
    assert!(helped > 200, "{helped}");
    assert!(filling > 200, "{filling}");
    assert!(worn > 50, "{worn}");
}

/// Begins of every count are accepted; the longest runs are gone through by
/// their owners, from step 3, and in the middle, where a helper finds a part
/// of the log filled.
#[test]
fn calls_reach_the_longest_runs() {
    let mut counts = BTreeSet::new();
    let mut long = 0;
    let mut longest = 0;
    let mut runs = [0; 3];
    for seed in 0..FILES {
        let file = file(seed);
        for [call, count, refusal, answer, steps, filled] in calls(&file, &walk(&file)) {
            if (call, refusal) == (0, 0) {
                counts.insert(count);
                long += u32::from(count > 32);
                longest += u32::from(count == 64);
            }
            runs[0] += u32::from(steps == 196 && answer < 3);
            runs[1] += u32::from(steps == 196 && answer == 3);
            runs[2] += u32::from(steps == 193 && (1..63).contains(&filled));
        }
    }
    println!("{long} begun with 33 to 64, {longest} with 64, {runs:?}");
    assert_eq!(counts, (1..=64).collect());
    assert!(long > 1_000 && longest > 500, "{long}, {longest}");
    assert!(runs[0] > 80 && runs[1] > 15 && runs[2] > 30, "{runs:?}");
}

/// Why a setup is refused, or that it is cut short.
fn setup_fault(file: &[u8]) -> String {
    if file.len() < 2 {
        return "setup: no length field".to_string();
    }
    let Some(record) = file.get(..field(file)) else {
        return "setup: cut short".to_string();
    };
    let refusal = Engine::blank().setup(record).expect_err("it is refused");
    let (place, words) = (refusal.place as usize, record.get(5));
    let first_turn = 6 + 5 * words.map_or(0, |&words| usize::from(words));
    let part = match (refusal.number, place) {
        (5, _) if record.len() < 4 => "shorter than 4",
        (5, _) if record.len() < 6 => "shorter than 6",
        (5, _) => "another length",
        (6, _) => "another kind",
        (_, 4) => "locks",
        (_, 5) => "words",
        _ if place < first_turn => "a guard",
        _ => "a turn",
    };
    format!("setup: {part}")
}

/// All that is wrong with a whole record of kind 3.
fn call_faults(record: &[u8]) -> Vec<&'static str> {
    let &[_, _, _, _, call, _, lock, last, ref program @ ..] = record else {
        return vec!["call: no whole head"];
    };
    let names = ["begin", "step", "collect", "drop"];
    let call = names.get(usize::from(call)).copied().unwrap_or("above 3");
    let length = program.len();
    let alone = matches!(call, "step" | "collect" | "drop");
    let faults = [
        (call == "above 3", "call: above 3"),
        (last != 0, "call: last head byte"),
        (call == "step" && lock != 0, "step: lock"),
        (call == "collect" && lock != 0, "collect: lock"),
        (call == "drop" && lock != 0, "drop: lock"),
        (alone && length % 4 == 0 && length > 0, "alone: a program"),
        (alone && length % 4 != 0, "alone: another length"),
        (call == "begin" && length == 0, "begin: no program"),
        (call == "begin" && length % 4 != 0, "begin: a part"),
        (call == "begin" && length == 4 * 65, "begin: one too many"),
        (call == "begin" && length > 4 * 65, "begin: too many"),
    ];
    let found = faults.iter().filter(|(there, _)| *there);
    found.map(|&(_, fault)| fault).collect()
}

/// What ended the walk of a file, where it is one thing alone.
fn end(file: &[u8], walked: &Walked) -> Option<String> {
    let rest = &file[walked.place..];
    let end = match walked.ended {
        Ended::Whole if file.len() == LONGEST_FILE => "whole: the longest",
        Ended::Whole => "whole",
        Ended::TooLong if file.len() == LONGEST_FILE + 1 => "too long: by 1",
        Ended::TooLong => "too long: by more",
        Ended::CutSetup | Ended::Setup(_) => return Some(setup_fault(file)),
        Ended::Record(5) if rest.len() < 2 => "record: no length field",
        Ended::Record(5) if field(rest) < 4 => "record: shorter than 4",
        Ended::Record(5) => "record: cut short",
        Ended::Record(6) => "record: another kind",
        Ended::Record(_) => match call_faults(&rest[..field(rest)])[..] {
            [fault] => fault,
            _ => return None,
        },
    };
    Some(end.to_string())
}

#[test]
fn walks_end_in_every_way() {
    let wanted = [
        "alone: a program",
        "alone: another length",
        "begin: a part",
        "begin: no program",
        "begin: one too many",
        "begin: too many",
        "call: above 3",
        "call: last head byte",
        "call: no whole head",
        "collect: lock",
        "drop: lock",
        "record: another kind",
        "record: cut short",
        "record: no length field",
        "record: shorter than 4",
        "setup: a guard",
        "setup: a turn",
        "setup: another kind",
        "setup: another length",
        "setup: cut short",
        "setup: locks",
        "setup: no length field",
        "setup: shorter than 4",
        "setup: shorter than 6",
        "setup: words",
        "step: lock",
        "too long: by 1",
        "too long: by more",
        "whole",
        "whole: the longest",
    ];
    let files = (0..FILES).map(file);
    let ends = files.filter_map(|file| end(&file, &walk(&file)));
    let ends: BTreeSet<String> = ends.collect();
    let ends: Vec<&str> = ends.iter().map(String::as_str).collect();
    assert_eq!(ends, wanted);
}

#[test]
fn the_same_seed_gives_the_same_file() {
    for seed in [0, 1, 77, u64::MAX] {
        assert_eq!(file(seed), file(seed));
    }
    assert_ne!(file(1), file(2));
}
