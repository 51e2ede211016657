//! What docs/JOBS.md says is so: each worked job is parsed and run on the
//! archive with the words of each of its rows, each instruction costs what its
//! table says, the faults that it shows are told, and the same jobs in C's
//! macros are the same jobs. And that the sample's comments say what its jobs
//! are.

use chantgarden::{plain, Answer, Engine, Job};

const PAGE: &str = include_str!("../../docs/JOBS.md");
/// What the program `jobs` lists of examples/jobs.c: scripts/examples holds
/// it against that.
const IN_C: &str = include_str!("../../examples/jobs.txt");
const SCRIPT: &str = include_str!("../../samples/cut-off.script");

/// A worked job, and the rows of its table.
struct Worked {
    job: Job,
    rows: Vec<[String; 4]>,
}

fn job(text: &str) -> Job {
    text.parse()
        .unwrap_or_else(|faults| panic!("{text}:\n{faults}"))
}

/// The cells of a table's row.
fn cells<const N: usize>(row: &str) -> Option<[String; N]> {
    let row = row.strip_prefix("| ")?.strip_suffix(" |")?;
    let cells: Vec<String> = row.split(" | ").map(str::to_string).collect();
    cells.try_into().ok()
}

fn worked() -> Vec<Worked> {
    let parts = PAGE.split("```job\n").skip(1);
    parts
        .map(|part| {
            let (text, rest) = part.split_once("```\n").expect("it ends");
            let table = rest.trim_start().lines();
            let rows = table.map_while(|line| line.starts_with('|').then_some(line));
            let rows: Vec<[String; 4]> = rows.filter_map(cells).skip(1).collect();
            assert!(!rows.is_empty(), "{text}");
            let job = job(text);
            Worked { job, rows }
        })
        .collect()
}

fn numbers(cell: &str) -> Vec<u32> {
    let numbers = cell.split(' ');
    numbers.map(|one| one.parse().expect("a number")).collect()
}

/// One lock, which guards these words.
fn setup(words: &[u32]) -> Vec<u8> {
    let length = (6 + 5 * words.len() + 4) as u16;
    let mut record = [length, 2].map(u16::to_le_bytes).concat();
    record.extend([1, words.len() as u8]);
    record.resize(record.len() + words.len(), 0);
    record.extend(words.iter().flat_map(|word| word.to_le_bytes()));
    record.extend([0; 4]);
    record
}

/// Steps a job alone: its answer and steps, and the words then.
fn stepped(job: &Job, words: &[u32]) -> (Answer, u32, Vec<u32>) {
    let mut engine = Engine::blank();
    assert_eq!(engine.setup(&setup(words)), Ok(()));
    assert_eq!(engine.begin(0, 0, job.record()), Ok(()), "{job}");
    while engine.step(0).is_ok() {}
    let told = engine.collect(0).expect("it has an answer");
    let word = |word| engine.read_word(word).expect("it is there").value;
    let after = (0..words.len() as u32).map(word).collect();
    (told.answer, told.steps, after)
}

#[test]
fn each_row_of_the_five_jobs() {
    let all = worked();
    assert_eq!(all.len(), 5);
    for Worked { job, rows } in all {
        let mut longest = 0;
        for [before, answer, after, steps] in rows {
            let (words, after) = (numbers(&before), numbers(&after));
            let (said, steps) = match answer.as_str() {
                "yes" => (Answer::RanYes, numbers(&steps)[0]),
                "no" => (Answer::RanNo, numbers(&steps)[0]),
                _ => panic!("{answer} is no answer"),
            };
            assert_eq!(stepped(&job, &words), (said, steps, after.clone()), "{job}");
            let mut values = words.clone();
            let ran = plain(&mut values, &vec![0; words.len()], 0, job.record());
            assert_eq!(ran.expect("it is good").yes, answer == "yes");
            assert_eq!(values, after);
            longest = longest.max(steps);
        }
        assert_eq!(longest, job.longest_try(), "{job}");
    }
}

/// On words and registers that are all 0, so that a cam changes its word.
#[test]
fn each_row_of_the_instructions() {
    let rows = PAGE.lines().filter_map(cells::<3>);
    let rows: Vec<_> = rows.filter(|row| row[0].starts_with('`')).collect();
    assert_eq!(rows.len(), 8);
    for [instruction, _, steps] in rows {
        let instruction = instruction.trim_matches('`');
        let steps = numbers(&steps)[0];
        let job = job(&format!("{instruction}\nhalt no\nhalt no"));
        assert_eq!(job.instructions()[0].to_string(), instruction);
        assert_eq!(job.instructions()[0].steps(), steps);
        let halt = u32::from(!instruction.starts_with("halt"));
        let (_, took, _) = stepped(&job, &[0; 3]);
        assert_eq!(took, 4 + steps + halt + 2, "{instruction}");
    }
}

#[test]
fn the_faults_that_it_shows() {
    let shown = PAGE
        .lines()
        .filter_map(|line| line.strip_prefix("    line "));
    let shown: Vec<String> = shown.map(|line| format!("line {line}")).collect();
    assert_eq!(shown.len(), 2);
    let told = "load r4 w0\nlaod r0 w0\nhalt no".parse::<Job>();
    assert_eq!(told.expect_err("it is bad").to_string(), shown.join("\n"));
}

#[test]
fn the_same_jobs_in_c() {
    let mut text = String::new();
    for (index, Worked { job, .. }) in worked().iter().enumerate() {
        text += &format!("line {}: worker {index}, lock 0\n", index + 2);
        for line in job.to_string().lines() {
            text += &format!("    {line}\n");
        }
    }
    assert_eq!(IN_C, text);
}

/// Above each begin its job stands, after a name and a colon.
#[test]
fn the_comments_of_the_sample() {
    let mut begins = 0;
    let lines: Vec<&str> = SCRIPT.lines().collect();
    for pair in lines.windows(2) {
        let [comment, line] = [pair[0], pair[1]];
        let Some(hexadecimal) = line.strip_prefix("begin ") else {
            continue;
        };
        let record = hexadecimal.split(' ').nth(2).expect("a record");
        let text = comment.split(": ").last().expect("a job");
        let bytes = job(&text.replace(", ", "\n"));
        let bytes = bytes.record().iter().map(|byte| format!("{byte:02x}"));
        assert_eq!(bytes.collect::<String>(), record);
        begins += 1;
    }
    assert_eq!(begins, 3);
}
