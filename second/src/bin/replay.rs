//! Reads a call file on standard input, makes its calls again and writes one
//! line for each.

use second::{files, program};

fn main() -> std::io::Result<()> {
    program::from_input_to_output(files::LONGEST_FILE, files::run)
}
