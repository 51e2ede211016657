//! The comparisons themselves, of this program with itself and with wrong
//! ones.

use second::{files, generate, script};
use std::fs;
use std::io::Write;
use std::path::{Path, PathBuf};
use std::process::{Command, Output, Stdio};

const SCRIPTS: &str = env!("CARGO_BIN_EXE_compare");
const FILES: &str = env!("CARGO_BIN_EXE_compare_files");
const SECOND: &str = env!("CARGO_BIN_EXE_second");
const REPLAY: &str = env!("CARGO_BIN_EXE_replay");
const GENERATE: &str = env!("CARGO_BIN_EXE_generate");

fn folder() -> PathBuf {
    PathBuf::from(env!("CARGO_TARGET_TMPDIR"))
}

/// Compares so many scripts or files from seed 1 on.
fn compare(comparison: &str, inputs: &str, program: &Path, saved: &Path) -> (Output, String) {
    let output = Command::new(comparison)
        .args(["1", inputs])
        .args([program, saved])
        .output()
        .expect("it runs");
    let told = String::from_utf8_lossy(&output.stdout).into_owned();
    (output, told)
}

/// A program that is made wrong on purpose: this line of the shell.
fn wrong_program(name: &str, line: &str) -> PathBuf {
    let program = folder().join(name);
    fs::write(&program, format!("#!/bin/sh\n{line}\n")).expect("it is written");
    let made = Command::new("chmod").arg("+x").arg(&program).status();
    assert!(made.expect("it runs").success());
    program
}

#[test]
fn equal_programs() {
    let saved = folder().join("none.script");
    let (output, told) = compare(SCRIPTS, "60", Path::new(SECOND), &saved);
    assert!(output.status.success(), "{told}");
    assert!(told.starts_with("compare: 60 scripts, "), "{told}");
    assert!(told.ends_with(" lines, all equal\n"), "{told}");
    assert!(!saved.exists());
}

/// A program that tells one step more on line 150: the difference is found,
/// and the saved script ends with that line.
#[test]
fn a_program_with_one_wrong_line() {
    let wrong = format!("'{SECOND}' | sed 's/^150 /150 9/'");
    let program = wrong_program("one-wrong-line", &wrong);
    let saved = folder().join("one-wrong-line.script");
    let (output, told) = compare(SCRIPTS, "60", &program, &saved);
    assert_eq!(output.status.code(), Some(1));
    assert!(told.contains("first difference after "), "{told}");
    assert!(told.contains("\nother:  150 9"), "{told}");
    let kept = fs::read(&saved).expect("the script is saved");
    assert_eq!(script::lines(&kept).len(), 150);
}

#[test]
fn a_program_that_is_not_there() {
    for comparison in [SCRIPTS, FILES] {
        let saved = folder().join("not-there.script");
        let (output, told) = compare(comparison, "1", Path::new("./no-such-program"), &saved);
        assert_eq!(output.status.code(), Some(1));
        assert!(told.contains("no-such-program"), "{told}");
    }
}

#[test]
fn equal_programs_on_files() {
    let saved = folder().join("none.file");
    let (output, told) = compare(FILES, "60", Path::new(REPLAY), &saved);
    assert!(output.status.success(), "{told}");
    assert!(told.starts_with("compare: 60 files, "), "{told}");
    assert!(told.contains(" lines, all equal; whole: "), "{told}");
    assert_eq!(told.lines().count(), 1);
    assert!(!saved.exists());
}

/// Compares files with a wrong program; gives what was told. The difference
/// is found in the first file with such a line, and that file is saved.
fn difference_in_files(name: &str, wrong: &str, such: impl Fn(&str) -> bool) -> String {
    let program = wrong_program(name, wrong);
    let saved = folder().join(format!("{name}.file"));
    let (output, told) = compare(FILES, "60", &program, &saved);
    assert_eq!(output.status.code(), Some(1));
    let first = (1..).find(|&seed| files::run(&generate::files::file(seed)).lines().any(&such));
    let seed = first.expect("there is one");
    let found = format!("compare: seed {seed}: first difference after ");
    assert!(told.starts_with(&found), "{told}");
    let kept = fs::read(&saved).expect("the file is saved");
    assert_eq!(kept, generate::files::file(seed));
    told
}

#[test]
fn a_program_with_one_wrong_refusal() {
    let wrong = format!("'{REPLAY}' | sed 's/ 17 0 0$/ 6 0 0/'");
    let such = |line: &str| line.ends_with(" 17 0 0");
    let told = difference_in_files("one-wrong-refusal", &wrong, such);
    let lines: Vec<&str> = told.lines().collect();
    assert!(lines[1].starts_with("second: ") && lines[1].ends_with(" 17 0 0"));
    assert!(lines[2].starts_with("other:  ") && lines[2].ends_with(" 6 0 0"));
}

/// Byte by byte: also the last newline counts.
#[test]
fn a_program_without_the_last_newline() {
    let wrong = format!("printf '%s' \"$('{REPLAY}')\"");
    let told = difference_in_files("no-last-newline", &wrong, |_| true);
    assert!(told.contains("(no such line; "), "{told}");
}

/// What a program writes for an input.
fn written(program: &str, arguments: &[&str], bytes: &[u8]) -> Vec<u8> {
    let mut process = Command::new(program)
        .args(arguments)
        .stdin(Stdio::piped())
        .stdout(Stdio::piped())
        .spawn()
        .expect("it runs");
    let mut input = process.stdin.take().expect("its input is a pipe");
    input.write_all(bytes).expect("it is read");
    drop(input);
    let output = process.wait_with_output().expect("it ends");
    assert!(output.status.success());
    output.stdout
}

/// The programs as processes: what the library gives, and nothing else.
#[test]
fn programs_write_what_the_library_gives() {
    let script = written(GENERATE, &["7"], &[]);
    assert_eq!(script, generate::history(7));
    let file = written(GENERATE, &["files", "7"], &[]);
    assert_eq!(file, generate::files::file(7));
    let too_long = vec![b'\n'; 65_537];
    for bytes in [script, file, too_long, Vec::new()] {
        let told = script::run(&bytes).into_bytes();
        assert_eq!(written(SECOND, &[], &bytes), told);
        let told = files::run(&bytes).into_bytes();
        assert_eq!(written(REPLAY, &[], &bytes), told);
    }
}
