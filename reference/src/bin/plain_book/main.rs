//! The program of documents 01 and 02 once more, written for speed: the
//! comparator of the speed comparison. It shares no code with the library.
//!
//! The input is read into memory at once, every byte of a record is looked at
//! once, the state stands in fixed arrays, no line allocates, and the output is
//! written at the end in one piece.

mod answer;
mod book;
mod factor;
mod letter;
mod reader;
mod register;
mod year_end;

use std::fs::File;
use std::io::{Read, Write};
use std::os::fd::AsFd;
use std::process::ExitCode;

use book::Book;
use reader::Reader;

fn main() -> ExitCode {
    let input = standard_input();
    let output = run(&input);
    let mut standard_output = std::io::stdout().lock();
    match standard_output.write_all(&output) {
        Ok(()) if standard_output.flush().is_ok() => ExitCode::SUCCESS,
        _ => ExitCode::FAILURE,
    }
}

/// The whole input. As a file it tells its size beforehand. A read error ends
/// the input.
fn standard_input() -> Vec<u8> {
    let mut input = Vec::new();
    if let Ok(descriptor) = std::io::stdin().as_fd().try_clone_to_owned() {
        let _ = File::from(descriptor).read_to_end(&mut input);
    }
    input
}

/// The whole output for the whole input.
fn run(input: &[u8]) -> Vec<u8> {
    let mut output = Vec::with_capacity(input.len() / 2 + 64);
    let mut book = Book::empty();
    let mut reader = Reader::new(input);
    while reader.begin_line() {
        match book.answer(&mut reader, &mut output) {
            Ok(()) => book.accepted += 1,
            Err(question) => {
                book.refused += 1;
                answer::no(&mut output, reader.skip_line(question));
            }
        }
        reader.end_line();
    }
    answer::done(&mut output, book.accepted, book.refused);
    output
}
