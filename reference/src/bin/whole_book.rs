//! Writes an input of the speed comparison to standard output: a whole book, so
//! many times over as the argument says. With the word `register` after it the
//! rates of the book come from the register; with `patterns` it has no YEAR.

use std::io::Write;
use std::process::ExitCode;

use reference::whole_book::{whole_book, whole_book_of_patterns, whole_book_of_register, SEED};

fn main() -> ExitCode {
    let arguments: Vec<String> = std::env::args().skip(1).collect();
    let Some(books) = books(&arguments) else {
        eprintln!("usage: whole_book TIMES [register | patterns]");
        return ExitCode::FAILURE;
    };
    match std::io::stdout().lock().write_all(&books) {
        Ok(()) => ExitCode::SUCCESS,
        Err(_) => ExitCode::FAILURE,
    }
}

/// Nothing if the arguments are wrong.
fn books(arguments: &[String]) -> Option<Vec<u8>> {
    let times = arguments.first()?.parse().ok()?;
    let book = match arguments.get(1).map(String::as_str) {
        None => whole_book(SEED),
        Some("register") => whole_book_of_register(SEED),
        Some("patterns") => whole_book_of_patterns(SEED),
        Some(_) => return None,
    };
    Some(book.repeat(times))
}
