//! The generator makes what it is for.

use second::check::Checker;
use second::engine::{Engine, Wrong};
use second::generate;
use second::script::{self, parse, Call, LONGEST_SCRIPT};
use std::collections::{BTreeMap, BTreeSet};

/// The refusal's number in a line that was written.
fn refusal(line: &str) -> u32 {
    let word = line.split(' ').nth(1).expect("a line has a refusal");
    word.parse()
        .expect("of a script all of whose lines are of the form")
}

/// The calls of a script all of whose lines are of the form.
fn calls(text: &[u8]) -> Vec<Call> {
    let lines = script::lines(text).into_iter();
    let lines = lines.filter(|line| !script::passed_over(line));
    let calls = lines.map(|line| parse(line).expect("a line of the form"));
    calls.collect()
}

/// Scripts are of the form, have 200 calls or more and fit; together they
/// reach every refusal and all four answers, of which worn is the rarest.
/// Request 06 removed refusal 10.
#[test]
fn scripts_reach_everything() {
    let mut refusals = BTreeSet::new();
    let mut answers = BTreeSet::new();
    let mut worn = 0;
    let mut lengths = BTreeSet::new();
    for seed in 0..1_000 {
        let text = generate::history(seed);
        assert!(text.len() + 2_000 <= LONGEST_SCRIPT);
        let calls = calls(&text);
        let told = script::run(&text);
        let told: Vec<&str> = told.lines().collect();
        assert_eq!(told.len(), calls.len());
        assert!((200..=400).contains(&calls.len()));
        for (call, line) in calls.iter().zip(&told) {
            refusals.insert(refusal(line));
            match call {
                Call::Collect(_) => {
                    let answer = line.split(' ').nth(3).unwrap();
                    answers.insert(answer.to_string());
                    worn += u32::from(answer == "4");
                }
                Call::Begin { record, .. } if refusal(line) == 0 => {
                    lengths.insert(record.len());
                }
                _ => {}
            }
        }
    }
    let all: BTreeSet<u32> = (0..=16).filter(|&number| number != 10).collect();
    assert_eq!(refusals, all);
    assert_eq!(answers, ["0", "1", "2", "3", "4"].map(String::from).into());
    assert!(worn > 400, "{worn}");
    assert_eq!(lengths, (1..=64).map(|n| 4 + 4 * n).collect());
}

/// What is told of each call in the first scripts: the numbers of its line
/// but for the line's own; those of a lent buffer are left out.
fn told_of_scripts() -> Vec<(Call, Vec<u32>)> {
    let mut told = Vec::new();
    for seed in 0..1_000 {
        let text = generate::history(seed);
        let lines = script::run(&text);
        for (call, line) in calls(&text).into_iter().zip(lines.lines()) {
            let words = line.split(' ').skip(1);
            let numbers = words.map_while(|word| word.parse().ok());
            told.push((call, numbers.collect()));
        }
    }
    told
}

/// Counts what was found, by its name.
type Found = BTreeMap<String, u32>;

/// Each of these was found so many times at least.
fn found_all(found: &Found, wanted: &[(&str, u32)]) {
    for &(name, least) in wanted {
        let times = found.get(name).copied().unwrap_or(0);
        assert!(times >= least, "{name}: {times} of {least}");
    }
}

/// What an accepted begin or collect shows of long jobs and longest runs. A
/// helper that comes in the middle finds a part of the log filled.
fn length_shown(call: &Call, told: &[u32]) -> Vec<&'static str> {
    let names = match (call, told) {
        (Call::Begin { record, .. }, [0, ..]) => [
            (record.len() > 4 + 4 * 32, "begun with 33 to 64"),
            (record.len() == 4 + 4 * 64, "begun with 64"),
            (false, ""),
        ],
        (Call::Collect(_), &[0, _, answer, steps, filled]) => [
            (steps == 196 && answer < 3, "run by its owner"),
            (steps == 196 && answer == 3, "helped from step 3"),
            (
                steps == 193 && (1..63).contains(&filled),
                "helped in the middle",
            ),
        ],
        _ => return Vec::new(),
    };
    let names = names.iter().filter(|(there, _)| *there);
    names.map(|&(_, name)| name).collect()
}

#[test]
fn scripts_reach_the_longest_runs() {
    let mut found = Found::new();
    for (call, told) in told_of_scripts() {
        for name in length_shown(&call, &told) {
            *found.entry(name.to_string()).or_default() += 1;
        }
    }
    println!("{found:?}");
    let wanted = [
        ("begun with 33 to 64", 5_000),
        ("begun with 64", 3_000),
        ("run by its owner", 500),
        ("helped from step 3", 100),
        ("helped in the middle", 200),
    ];
    found_all(&found, &wanted);
}

/// What a begin is given, as far as 5 and 6 look at it, and the number that
/// it was told.
fn edge(record: &[u8], number: u32) -> Option<String> {
    let &[low, high, kind, 0, ref program @ ..] = record else {
        return None;
    };
    let right = usize::from(u16::from_le_bytes([low, high])) == record.len();
    let what = match (right, program.len() % 4) {
        (false, _) => "length field".to_string(),
        (true, 0) => (program.len() / 4).to_string(),
        (true, _) => "a part".to_string(),
    };
    Some(format!("kind {kind}, {what}: {number}"))
}

/// Jobs at the edges of their kind's counts and just beyond them, of both
/// kinds and of others, with the number that nothing before it hides.
const EDGES: [&str; 28] = [
    "kind 0, 32: 6",
    "kind 0, 33: 6",
    "kind 1, 0: 5",
    "kind 1, 1: 0",
    "kind 1, 32: 0",
    "kind 1, 33: 5",
    "kind 1, 64: 5",
    "kind 1, 65: 5",
    "kind 1, a part: 5",
    "kind 1, length field: 5",
    "kind 2, 32: 6",
    "kind 2, 33: 6",
    "kind 3, 32: 6",
    "kind 3, 33: 6",
    "kind 4, 0: 5",
    "kind 4, 1: 5",
    "kind 4, 32: 5",
    "kind 4, 33: 0",
    "kind 4, 64: 0",
    "kind 4, 65: 5",
    "kind 4, 127: 5",
    "kind 4, a part: 5",
    "kind 4, length field: 5",
    "kind 5, 0: 6",
    "kind 5, 32: 6",
    "kind 5, 33: 6",
    "kind 5, 64: 6",
    "kind 5, 65: 6",
];

#[test]
fn scripts_reach_the_edges_of_jobs() {
    let mut found = Found::new();
    for (call, told) in told_of_scripts() {
        if let Call::Begin { record, .. } = call {
            let edge = edge(&record, told[0]).into_iter();
            edge.for_each(|edge| *found.entry(edge).or_default() += 1);
        }
    }
    found_all(&found, &EDGES.map(|edge| (edge, 3)));
}

/// Long logs are filled side by side: an engine whose logs overlap often
/// writes other lines.
#[test]
fn scripts_tell_overlapping_logs() {
    let scripts = (0..200).map(generate::history);
    let told = scripts.filter(|text| {
        let mut wrong = Engine::wrong(Wrong::LogsOverlap);
        script::run_on(&mut wrong, text) != script::run(text)
    });
    let told = told.count();
    assert!(told > 20, "{told}");
}

/// Logs are often filled by several tries, of which one that is collected
/// tells neither none of the entries nor all.
#[test]
fn scripts_share_logs() {
    let mut shared = 0;
    for seed in 0..200 {
        let mut checker = Checker::new(Engine::blank());
        for call in calls(&generate::history(seed)) {
            checker.call(&call).expect("nothing is broken");
        }
        shared += checker.shared();
    }
    assert!(shared > 300, "{shared}");
}

#[test]
fn the_same_seed_gives_the_same_script() {
    for seed in [0, 1, 77, u64::MAX] {
        assert_eq!(generate::history(seed), generate::history(seed));
    }
    assert_ne!(generate::history(1), generate::history(2));
}
