//! A longer comparison of the proved program with this implementation, by hand:
//! special inputs and random streams, whole and in pieces.
//!
//! The arguments may be left out from the last on: the number of streams, the
//! records of each, the seed of the first, and the path of the program.

use std::path::{Path, PathBuf};
use std::process::ExitCode;
use std::time::{SystemTime, UNIX_EPOCH};

use reference::comparison::{difference, special_inputs, Pieces};
use reference::program::proved_book;
use reference::stream::random_stream;
use reference::whole_book::{whole_book_of_register, SEED};

/// A stream that is written byte by byte is no longer than this.
const RECORDS_IN_SINGLE_BYTES: usize = 500;

fn main() -> ExitCode {
    let arguments: Vec<String> = std::env::args().skip(1).collect();
    let number = |place: usize| -> Option<u64> { arguments.get(place)?.parse().ok() };
    let streams = number(0).unwrap_or(50);
    let records = number(1).unwrap_or(3_000) as usize;
    let seed = number(2).unwrap_or_else(seconds_now);
    let program = arguments.get(3).map_or_else(proved_book, PathBuf::from);
    println!("seed {seed}");
    match compare_all(&program, streams, records, seed) {
        Ok(inputs) => {
            println!("{inputs} inputs, {streams} of them random streams of {records} records: no difference");
            ExitCode::SUCCESS
        }
        Err(what) => {
            println!("{what}");
            ExitCode::FAILURE
        }
    }
}

fn seconds_now() -> u64 {
    let since = SystemTime::now().duration_since(UNIX_EPOCH);
    since.map_or(0, |time| time.as_secs())
}

/// The number of inputs that were compared, or what differed.
fn compare_all(program: &Path, streams: u64, records: usize, seed: u64) -> Result<u64, String> {
    let mut inputs = 0;
    let register = ("a whole book of the register", whole_book_of_register(SEED));
    for (name, input) in special_inputs().into_iter().chain([register]) {
        for pieces in [Pieces::Whole, Pieces::Random(seed)] {
            compare(program, &input, pieces, name)?;
            inputs += 1;
        }
    }
    let few = records.min(RECORDS_IN_SINGLE_BYTES);
    let name = format!("stream of seed {seed} with {few} records");
    let stream = random_stream(seed, few);
    compare(program, &stream, Pieces::SingleBytes, &name)?;
    inputs += 1;
    for stream in 0..streams {
        let seed = seed.wrapping_add(stream);
        let name = format!("stream of seed {seed} with {records} records");
        let input = random_stream(seed, records);
        compare(program, &input, Pieces::Whole, &name)?;
        compare(program, &input, Pieces::Random(seed), &name)?;
        inputs += 1;
    }
    Ok(inputs)
}

fn compare(program: &Path, input: &[u8], pieces: Pieces, name: &str) -> Result<(), String> {
    match difference(program, input, pieces) {
        Ok(None) => Ok(()),
        Ok(Some(found)) => Err(format!(
            "{name}, pieces {pieces:?}, line {}: expected {}, got {}",
            found.line, found.ours, found.theirs
        )),
        Err(error) => Err(format!("{name}: {error}")),
    }
}
