//! Writes one random script or call file, the same from the same seed.

use second::generate;
use std::io::{self, Write};
use std::process::ExitCode;

fn main() -> ExitCode {
    let words: Vec<String> = std::env::args().skip(1).collect();
    let (make, seed): (fn(u64) -> Vec<u8>, &str) = match words.as_slice() {
        [seed] => (generate::history, seed),
        [files, seed] if files == "files" => (generate::files::file, seed),
        _ => (generate::history, ""),
    };
    let Ok(seed) = seed.parse() else {
        eprintln!("usage: generate SEED, generate files SEED");
        return ExitCode::from(2);
    };
    match io::stdout().write_all(&make(seed)) {
        Ok(()) => ExitCode::SUCCESS,
        Err(_) => ExitCode::FAILURE,
    }
}
