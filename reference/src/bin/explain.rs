//! Explains a run of the book: `explain [--html FILE] [RECORDS]`.
//!
//! The records are a file, or standard input. The explanation goes to standard
//! output as text, or with --html to a file as a page.

use std::ffi::OsString;
use std::fs::File;
use std::io::{Error, ErrorKind, Read, Write};
use std::path::{Path, PathBuf};
use std::process::ExitCode;

use reference::explain::explain;
use reference::explain::page::{page, BEGINNING};
use reference::explain::text::text;

const USAGE: &str = "usage: explain [--html FILE] [RECORDS]
  RECORDS      the file of records; standard input without it
  --html FILE  write the explanation as a page into FILE
";

const WRONG_ARGUMENTS: u8 = 2;

#[derive(Default)]
struct Arguments {
    records: Option<PathBuf>,
    page: Option<PathBuf>,
}

fn main() -> ExitCode {
    let Some(arguments) = read_arguments(std::env::args_os().skip(1)) else {
        complain(USAGE);
        return ExitCode::from(WRONG_ARGUMENTS);
    };
    match run(&arguments) {
        Ok(()) => ExitCode::SUCCESS,
        Err(what) => {
            complain(&format!("explain: {what}\n"));
            ExitCode::FAILURE
        }
    }
}

/// Standard error may be closed.
fn complain(message: &str) {
    let _ = std::io::stderr().write_all(message.as_bytes());
}

/// Nothing if they are wrong.
fn read_arguments(mut given: impl Iterator<Item = OsString>) -> Option<Arguments> {
    let mut arguments = Arguments::default();
    while let Some(argument) = given.next() {
        let (place, file) = if argument == "--html" {
            (&mut arguments.page, given.next()?)
        } else {
            (&mut arguments.records, argument)
        };
        let is_option = file.as_encoded_bytes().starts_with(b"-");
        if is_option || file.is_empty() || place.is_some() {
            return None;
        }
        *place = Some(PathBuf::from(file));
    }
    Some(arguments)
}

fn run(arguments: &Arguments) -> Result<(), String> {
    let (name, input) = read_records(arguments.records.as_deref())?;
    let report = explain(&name, &input);
    let output = match &arguments.page {
        None => text(&report),
        Some(file) => {
            write_page(file, &page(&report)).map_err(|error| named(file, &error))?;
            format!("The page is {}\n", file.display())
        }
    };
    let mut standard_output = std::io::stdout().lock();
    let written = standard_output.write_all(output.as_bytes());
    match written.and_then(|()| standard_output.flush()) {
        // A reader that has seen enough, such as head, is no failure.
        Err(error) if error.kind() != ErrorKind::BrokenPipe => {
            Err(format!("standard output: {error}"))
        }
        _ => Ok(()),
    }
}

fn named(file: &Path, error: &Error) -> String {
    format!("{}: {error}", file.display())
}

/// The records and what they are called.
fn read_records(file: Option<&Path>) -> Result<(String, Vec<u8>), String> {
    match file {
        Some(file) => {
            let input = std::fs::read(file).map_err(|error| named(file, &error))?;
            Ok((file.display().to_string(), input))
        }
        None => {
            let mut input = Vec::new();
            let read = std::io::stdin().lock().read_to_end(&mut input);
            read.map_err(|error| format!("standard input: {error}"))?;
            Ok(("standard input".to_string(), input))
        }
    }
}

/// A file that is there and is no page stays: it may be the records.
fn write_page(file: &Path, page: &str) -> Result<(), Error> {
    if file.is_file() {
        let mut beginning = Vec::new();
        let longest = BEGINNING.len() as u64;
        File::open(file)?
            .take(longest)
            .read_to_end(&mut beginning)?;
        if !beginning.is_empty() && beginning != BEGINNING.as_bytes() {
            let what = "it is there and is no page, so it is not overwritten";
            return Err(Error::new(ErrorKind::AlreadyExists, what));
        }
    }
    std::fs::write(file, page)
}
