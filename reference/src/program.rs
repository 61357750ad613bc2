//! Runs of a program: records into its standard input, answers out of its
//! standard output.

use std::fs::File;
use std::io::{Error, Read, Result, Write};
use std::path::{Path, PathBuf};
use std::process::{Command, Stdio};
use std::time::{Duration, Instant};

/// Where the proved program stands, once `rt run` or the gate has built it.
pub fn proved_book() -> PathBuf {
    Path::new(env!("CARGO_MANIFEST_DIR")).join("../crates/book/out/book")
}

/// A program's output for an input that is written to it piece by piece.
pub fn answers<'a>(program: &Path, pieces: impl IntoIterator<Item = &'a [u8]>) -> Result<Vec<u8>> {
    let mut process = Command::new(program)
        .stdin(Stdio::piped())
        .stdout(Stdio::piped())
        .spawn()
        .map_err(|error| failure(program, &error))?;
    let mut input = process.stdin.take().expect("its input is a pipe");
    let mut output = process.stdout.take().expect("its output is a pipe");
    // Read beside the writing, so that neither waits for the other.
    let reader = std::thread::spawn(move || {
        let mut answers = Vec::new();
        output.read_to_end(&mut answers).map(|_| answers)
    });
    for piece in pieces {
        input.write_all(piece)?;
        input.flush()?;
    }
    drop(input);
    let answers = reader.join().expect("reading does not panic")?;
    let status = process.wait()?;
    if status.success() {
        Ok(answers)
    } else {
        Err(failure(program, &status))
    }
}

/// The time of one run from a file into a file.
pub fn timed_run(program: &Path, input: &Path, output: &Path) -> Result<Duration> {
    let mut command = Command::new(program);
    command.stdin(File::open(input)?);
    command.stdout(File::create(output)?);
    let start = Instant::now();
    let status = command.status();
    let time = start.elapsed();
    match status {
        Ok(status) if status.success() => Ok(time),
        Ok(status) => Err(failure(program, &status)),
        Err(error) => Err(failure(program, &error)),
    }
}

fn failure(program: &Path, what: &dyn std::fmt::Display) -> Error {
    Error::other(format!("{}: {what}", program.display()))
}
