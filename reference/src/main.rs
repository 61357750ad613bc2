//! The program: records from standard input, answers to standard output.

use std::io::{Read, Write};
use std::process::ExitCode;

fn main() -> ExitCode {
    let mut input = Vec::new();
    // A read error ends the input; what came before it is answered.
    let _ = std::io::stdin().lock().read_to_end(&mut input);
    let output = reference::run::run(&input);
    let mut standard_output = std::io::stdout().lock();
    let written = standard_output.write_all(&output);
    match written.and_then(|()| standard_output.flush()) {
        Ok(()) => ExitCode::SUCCESS,
        Err(_) => ExitCode::FAILURE,
    }
}
