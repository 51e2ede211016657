//! Instructions, counted by valgrind's callgrind: what each function's calls
//! of each other one took, all that these call with them.

use std::collections::HashMap;
use std::io::ErrorKind;
use std::path::Path;
use std::process::{Command, Stdio};
use std::{env, fs, process};

/// The calls of one function by another.
#[derive(Clone, Copy, PartialEq, Eq, Debug, Default)]
pub struct Edge {
    pub calls: u64,
    /// Their instructions in all.
    pub cost: u64,
}

/// All calls of one run, by the linker's names of caller and called.
#[derive(Debug, Default)]
pub struct Edges(HashMap<(String, String), Edge>);

/// Runs this program with these words under callgrind; none where there is
/// no valgrind.
pub fn run(words: &[&str]) -> Result<Option<Edges>, String> {
    let file = env::temp_dir().join(format!("bench-callgrind-{}", process::id()));
    let there = valgrind(words, &file);
    let text = fs::read_to_string(&file);
    // Where there is none, there is nothing to remove.
    let _ = fs::remove_file(&file);
    if !there? {
        return Ok(None);
    }
    let text = text.map_err(|fault| format!("callgrind's file: {fault}"))?;
    Edges::parse(&text).map(Some)
}

/// The names as the linker has them, and nothing in the file cut short. The
/// C library is kept from clearing and copying by one repeated instruction,
/// which callgrind would count once for each byte.
fn valgrind(words: &[&str], file: &Path) -> Result<bool, String> {
    let program = env::current_exe().map_err(|fault| fault.to_string())?;
    let mut command = Command::new("valgrind");
    command.args(["--tool=callgrind", "--quiet", "--demangle=no"]);
    command.args(["--compress-strings=no", "--compress-pos=no"]);
    command.arg(format!("--callgrind-out-file={}", file.display()));
    command.env("GLIBC_TUNABLES", "glibc.cpu.hwcaps=-ERMS");
    command.arg(program).args(words).stdout(Stdio::null());
    match command.status() {
        Ok(status) if status.success() => Ok(true),
        Ok(status) => Err(format!("valgrind: {status}")),
        Err(fault) if fault.kind() == ErrorKind::NotFound => Ok(false),
        Err(fault) => Err(format!("valgrind: {fault}")),
    }
}

impl Edges {
    /// After `fn=` come the costs of that function; among them, for each
    /// function that it calls, a `cfn=` line, a `calls=` line, and a line
    /// with the caller's place and what the calls took.
    pub fn parse(text: &str) -> Result<Edges, String> {
        let mut edges = Edges::default();
        let (mut caller, mut called) = ("", "");
        let mut lines = text.lines();
        while let Some(line) = lines.next() {
            if let Some(name) = line.strip_prefix("fn=") {
                caller = name;
            } else if let Some(name) = line.strip_prefix("cfn=") {
                called = name;
            } else if let Some(calls) = line.strip_prefix("calls=") {
                let cost = lines.next().unwrap_or("");
                let fault = || format!("callgrind's file has `{line}`, then `{cost}`");
                let calls = number(calls, 0).ok_or_else(fault)?;
                let cost = number(cost, 1).ok_or_else(fault)?;
                let names = (caller.to_string(), called.to_string());
                let edge = edges.0.entry(names).or_default();
                edge.calls += calls;
                edge.cost += cost;
            }
        }
        Ok(edges)
    }

    /// The calls of a function, by the linker's name, from a Rust function,
    /// by its own name, whatever the types are that it was compiled for: the
    /// linker's name has that name's length and then the name.
    pub fn between(&self, caller: &str, called: &str) -> Edge {
        let caller = format!("{}{caller}", caller.len());
        let mut all = Edge::default();
        for ((from, to), edge) in &self.0 {
            if to == called && from.contains(&caller) {
                all.calls += edge.calls;
                all.cost += edge.cost;
            }
        }
        all
    }
}

/// One of the numbers of a line.
fn number(line: &str, place: usize) -> Option<u64> {
    line.split(' ').nth(place)?.parse().ok()
}

#[cfg(test)]
mod tests {
    use super::*;

    const TEXT: &str = "\
# callgrind format
version: 1
positions: line
events: Ir
summary: 1530

ob=/a/program
fl=???
fn=_ZN5bench5count7at_look17h0123456789abcdefE
0 70
cfn=chant_step
calls=7 0
0 420
cob=/a/library
cfi=???
cfn=memset
calls=1 0
0 900

fn=_ZN5bench5count7at_look17hfedcba9876543210E
0 10
cfn=chant_step
calls=1 0
0 61
cfn=plain_step
calls=2 0
0 40

fn=_ZN5bench5count13at_look_again17h0123456789abcdefE
0 10
cfn=chant_step
calls=1 0
0 80
cfn=chant_step
calls=1 0
0 81

fn=chant_step
0 642
";

    #[test]
    fn edges_of_a_file() {
        let edges = Edges::parse(TEXT).expect("it is well formed");
        let between = |caller, called| {
            let Edge { calls, cost } = edges.between(caller, called);
            (calls, cost)
        };
        assert_eq!(between("at_look", "chant_step"), (8, 481));
        assert_eq!(between("at_look", "plain_step"), (2, 40));
        assert_eq!(between("at_look_again", "chant_step"), (2, 161));
        assert_eq!(between("at_look", "memset"), (1, 900));
        assert_eq!(between("look", "chant_step"), (0, 0));
        assert_eq!(between("at_look", "step"), (0, 0));
    }

    #[test]
    fn a_file_cut_short() {
        for text in ["fn=a\ncfn=b\ncalls=7 0", "cfn=b\ncalls=x 0\n0 5"] {
            assert!(Edges::parse(text).is_err());
        }
    }
}
