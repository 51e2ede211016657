//! What the programs that read standard input have in common.

use std::io::{self, Read, Write};

/// Reads standard input and writes what comes of it. One byte more than the
/// longest input is enough to know it too long.
pub fn from_input_to_output(longest: usize, run: fn(&[u8]) -> String) -> io::Result<()> {
    let mut input = Vec::new();
    let most = longest as u64 + 1;
    io::stdin().lock().take(most).read_to_end(&mut input)?;
    io::stdout().write_all(run(&input).as_bytes())
}
