//! Reads a script on standard input and writes one line for each call.

use second::{program, script};

fn main() -> std::io::Result<()> {
    program::from_input_to_output(script::LONGEST_SCRIPT, script::run)
}
