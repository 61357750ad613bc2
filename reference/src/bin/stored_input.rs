//! Writes the input that is stored with a proved program to standard output;
//! the program's name is the argument.

use std::io::Write;
use std::process::ExitCode;

use reference::stored_input::{stored_input, NAMES};

fn main() -> ExitCode {
    let name = std::env::args().nth(1).unwrap_or_default();
    let Some(input) = stored_input(&name) else {
        eprintln!("usage: stored_input NAME, one of {}", NAMES.join(", "));
        return ExitCode::FAILURE;
    };
    match std::io::stdout().lock().write_all(&input) {
        Ok(()) => ExitCode::SUCCESS,
        Err(_) => ExitCode::FAILURE,
    }
}
