//! Writes a random stream to standard output: seed and number of records are
//! the arguments.

use std::io::Write;
use std::process::ExitCode;

use reference::stream::random_stream;

fn main() -> ExitCode {
    let arguments: Vec<String> = std::env::args().skip(1).collect();
    let (Some(seed), Some(records)) = (number(&arguments, 0), number(&arguments, 1)) else {
        eprintln!("usage: random_stream SEED RECORDS");
        return ExitCode::FAILURE;
    };
    let stream = random_stream(seed, records as usize);
    match std::io::stdout().lock().write_all(&stream) {
        Ok(()) => ExitCode::SUCCESS,
        Err(_) => ExitCode::FAILURE,
    }
}

fn number(arguments: &[String], place: usize) -> Option<u64> {
    arguments.get(place)?.parse().ok()
}
