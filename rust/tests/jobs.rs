//! The program `jobs`, run on files in a temporary folder: what it prints, its
//! faults and its exit status. Then that the sample's comments say what its
//! jobs are.

use chantgarden::{Engine, Job, Recorder};
use std::io::Write;
use std::path::PathBuf;
use std::process::{Command, Output, Stdio};
use std::{env, fs, process};

/// Are words 0 and 1 equal?
const EQUAL: &str = "\
load r0 w0
load r1 w1
skip 1 if r0 = r1
halt no
halt yes
";
const RECORD: &str = "180001000200000002010100070001010000000000010000";
/// Two locks, words 5 and 9 under lock 0, word 7 under lock 1.
const S: &str = "1d00020002030000010500000009000000070000000000000000000000";

/// A folder of one test's own, removed at its end.
struct Folder(PathBuf);

impl Folder {
    fn new(test: &str) -> Folder {
        let name = format!("chantgarden-jobs-{test}-{}", process::id());
        let folder = Folder(env::temp_dir().join(name));
        fs::create_dir(&folder.0).expect("it is not there");
        folder
    }

    fn put(&self, file: &str, bytes: impl AsRef<[u8]>) {
        fs::write(self.0.join(file), bytes).expect("it can be written");
    }

    fn run(&self, words: &str) -> Output {
        let mut jobs = Command::new(env!("CARGO_BIN_EXE_jobs"));
        let jobs = jobs.args(words.split_whitespace()).current_dir(&self.0);
        jobs.output().expect("it runs")
    }

    /// It prints this, and has these faults or none.
    fn tells(&self, words: &str, out: impl AsRef<[u8]>, faults: &str) {
        let output = self.run(words);
        assert_eq!(told(&output.stderr), faults, "{words}");
        assert_eq!(output.stdout, out.as_ref(), "{words}");
        let status = i32::from(!faults.is_empty());
        assert_eq!(output.status.code(), Some(status), "{words}");
    }
}

impl Drop for Folder {
    fn drop(&mut self) {
        fs::remove_dir_all(&self.0).expect("it is there");
    }
}

fn told(bytes: &[u8]) -> &str {
    std::str::from_utf8(bytes).expect("it is text")
}

fn bytes(hexadecimal: &str) -> Vec<u8> {
    let digits: Vec<u8> = hexadecimal
        .chars()
        .map(|digit| digit.to_digit(16).expect("it is one") as u8)
        .collect();
    digits.chunks(2).map(|two| 16 * two[0] + two[1]).collect()
}

#[test]
fn there_and_back() {
    let folder = Folder::new("there");
    let text = "# equal?\nload r0 w0\nload r1 w1\nskip to yes if r0=r1\nhalt no\nyes: halt yes\n";
    folder.put("text", text);
    folder.tells("hex text", format!("{RECORD}\n"), "");
    folder.tells("bytes text", bytes(RECORD), "");
    let spaced = "18 00 01 00  02000000\n02010100 07000101\n00000000 0001 0000\n";
    folder.put("hex", RECORD);
    folder.put("capitals", RECORD.to_uppercase());
    folder.put("spaced", spaced);
    folder.put("bytes", bytes(RECORD));
    for file in ["hex", "capitals", "spaced", "bytes"] {
        folder.tells(&format!("text {file}"), EQUAL, "");
    }
}

#[test]
fn standard_input() {
    let mut jobs = Command::new(env!("CARGO_BIN_EXE_jobs"));
    let jobs = jobs.args(["hex", "-"]).stdin(Stdio::piped());
    let mut child = jobs.stdout(Stdio::piped()).spawn().expect("it runs");
    let mut input = child.stdin.take().expect("it is piped");
    input.write_all(EQUAL.as_bytes()).expect("it is read");
    drop(input);
    let output = child.wait_with_output().expect("it ends");
    assert_eq!(told(&output.stdout), format!("{RECORD}\n"));
}

/// Every fault is a line of its own, and nothing else is printed.
#[test]
fn faults_in_words() {
    let folder = Folder::new("faults");
    folder.put("text", "load r4 w0\n\nadd r0 r1\n");
    let faults = "\
line 1: `r4` stands where a register may stand: r0, r1, r2 or r3
line 3: `add r0 r1` stands at the end, where a halt may stand: `halt yes` or `halt no`
";
    folder.tells("hex text", "", faults);
    folder.tells("bytes text", "", faults);
    folder.put("latin", b"halt yes\n# caf\xe9\n");
    let latin = "line 2: a byte stands there that is no text: the notation may stand there, or a comment in UTF-8\n";
    folder.tells("hex latin", "", latin);
    folder.put("record", bytes("0c0001000204400001000000"));
    let faults = "\
instruction 0: `r4` stands where a register may stand: r0, r1, r2 or r3, in 02 04 40 00 (refused 7)
instruction 0: `w64` stands where a word may stand: w0 to w63, in 02 04 40 00 (refused 8)
instruction 1: `set r0 0` stands at the end, where a halt may stand: `halt yes` or `halt no`, in 01 00 00 00 (refused 7)
";
    folder.tells("text record", "", faults);
    folder.put("odd", "08000");
    let odd = "the record: 5 hexadecimal digits stand there: an even number may stand there\n";
    folder.tells("text odd", "", odd);
    folder.put("notation", EQUAL);
    let notation =
        "the record: `l` stands where a hexadecimal digit may stand: 0 to 9, a to f or A to F\n";
    folder.tells("text notation", "", notation);
}

fn indented(text: &str) -> String {
    text.lines().map(|line| format!("    {line}\n")).collect()
}

#[test]
fn the_jobs_of_a_script() {
    let folder = Folder::new("script");
    let good = format!(
        "# two\nbegin 9 0 {RECORD}\nsetup {S}\n\nbegin 1 0 {RECORD}\nstep 1 100\ncollect 1\nbegin 0 1 {RECORD}\nbegin 0 2 {RECORD}\nbegin 0 0 -\n"
    );
    let job = indented(EQUAL);
    let out = format!(
        "\
line 2: worker 9, lock 0
{job}    # no setup before it is accepted, so there is no lock (refused 2)
line 5: worker 1, lock 0
{job}line 8: worker 0, lock 1
{job}    # instruction 0: `load r0 w0` stands there: lock 0 guards w0, and only a word of lock 1 may stand there (refused 8)
    # instruction 1: `load r1 w1` stands there: lock 0 guards w1, and only a word of lock 1 may stand there (refused 8)
line 9: worker 0, lock 2
{job}    # refused 2 at place 0: lock not below L
line 10: worker 0, lock 0
    # the record: it has 0 bytes: 8 to 260 may stand there (refused 5)
"
    );
    folder.put("good", &good);
    folder.tells("list good", &out, "");
    for (line, fault) in [
        ("bgin 0 0 -", "line 11: `bgin` stands where a call may stand: setup, begin, step, collect, drop, word, lock, show, park; or a remark, which begins with #"),
        ("begin 0 0", "line 11: `begin`, a worker, a lock and a record may stand there, a space between each"),
        ("begin 0 x -", "line 11: `x` stands where a number may stand: 0 to 4294967295"),
        ("begin 0 0 080", "line 11: `080` stands where a record may stand: two hexadecimal digits a byte, 512 bytes at most, or - for none"),
    ] {
        folder.put("bad", format!("{good}{line}\nbegin 0 0 -\n"));
        folder.tells("list bad", &out, &format!("{fault}\n"));
    }
}

/// What a unit recorded: two begins, the second of them call 15.
fn recorded(long: &Job) -> Vec<u8> {
    let mut engine = Engine::blank();
    let mut file = Vec::new();
    let mut recorder = Recorder::new(&mut engine, |record| file.extend(record));
    recorder.setup(&bytes(S)).expect("it is good");
    recorder.begin(3, 0, &bytes(RECORD)).expect("it is good");
    while recorder.step(3).is_ok() {}
    let _ = recorder.collect(3).expect("it has an answer");
    recorder.begin(7, 1, long.record()).expect("it is good");
    file
}

/// Whole, damaged and cut off.
#[test]
fn the_jobs_of_a_call_file() {
    let folder = Folder::new("calls");
    let long = "load r0 w2\n".repeat(40) + "halt no";
    let file = recorded(&long.parse().expect("it is good"));
    let whole = format!(
        "call 0: worker 3, lock 0\n{}call 15: worker 7, lock 1\n{}",
        indented(EQUAL),
        indented(&long)
    );
    folder.put("whole", &file);
    folder.tells("list whole", &whole, "");
    for (end, fault) in [
        (
            &[9, 0, 3][..],
            "call 16: its record is cut short, or its length field below 4 (refused 5)",
        ),
        (
            &[8, 0, 4, 0, 1, 0, 0, 0],
            "call 16: the record's kind is not 3 (refused 6)",
        ),
        (
            &[8, 0, 3, 0, 1, 0, 1, 0],
            "call 16: the record makes no call (refused 17)",
        ),
        (
            &[8, 0, 3, 0, 0, 0, 1, 0],
            "call 16: the record makes no call (refused 17)",
        ),
    ] {
        folder.put("bad", [&file, end].concat());
        folder.tells("list bad", &whole, &format!("{fault}\n"));
    }
    folder.put("cut", &file[..28]);
    folder.tells("list cut", "", "the setup is cut short (refused 5)\n");
}

#[test]
fn wants_words_that_make_sense() {
    let folder = Folder::new("usage");
    for words in ["", "hex", "hex a b", "show a", "list"] {
        let output = folder.run(words);
        assert_eq!(output.status.code(), Some(2), "{words}");
        assert!(told(&output.stderr).starts_with("usage: jobs hex FILE"));
    }
    let output = folder.run("hex none");
    assert_eq!(output.status.code(), Some(2));
    assert!(told(&output.stderr).starts_with("none: "));
}
