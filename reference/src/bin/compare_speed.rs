//! The speed of the proved program beside that of `plain_book`, on the same
//! input files. The argument is the path of the proved program,
//! `crates/book/out/book` if there is none. It takes `plain_book` from its own
//! directory, so build all programs first: `cargo build --release`.

use std::io::{Error, Result};
use std::path::{Path, PathBuf};
use std::process::ExitCode;
use std::time::Duration;

use reference::program::{proved_book, timed_run};
use reference::run::records;
use reference::whole_book::{whole_book, whole_book_of_patterns, whole_book_of_register, SEED};

/// The whole book is in one file so many times, and alone is run so often.
const TIMES: usize = 60;

/// The long file is run so often.
const RUNS: usize = 9;

fn main() -> ExitCode {
    let book = std::env::args()
        .nth(1)
        .map_or_else(proved_book, PathBuf::from);
    if cfg!(debug_assertions) {
        eprintln!("built without --release: plain_book is slower than it can be");
    }
    match compare_all_settings(book) {
        Ok(()) => ExitCode::SUCCESS,
        Err(error) => {
            eprintln!("{error}");
            ExitCode::FAILURE
        }
    }
}

fn compare_all_settings(proved: PathBuf) -> Result<()> {
    let directory = std::env::temp_dir().join(format!("compare_speed.{}", std::process::id()));
    std::fs::create_dir(&directory)?;
    let comparison = Comparison {
        proved,
        plain: std::env::current_exe()?.with_file_name("plain_book"),
        directory,
    };
    let result = comparison
        .of_book("the whole book", &whole_book(SEED))
        .and_then(|()| {
            let book = whole_book_of_register(SEED);
            comparison.of_book("the whole book with its rates from the register", &book)
        })
        .and_then(|()| {
            let book = whole_book_of_patterns(SEED);
            comparison.alone("the whole book without its year ends", &book)
        });
    std::fs::remove_dir_all(&comparison.directory)?;
    result
}

/// The two programs and a directory for their input and output.
struct Comparison {
    proved: PathBuf,
    plain: PathBuf,
    directory: PathBuf,
}

impl Comparison {
    /// The book many times over in one file, and alone.
    fn of_book(&self, name: &str, book: &[u8]) -> Result<()> {
        let many = book.repeat(TIMES);
        self.run(&format!("one file: {name} 60 times over"), &many, RUNS)?;
        self.alone(name, book)
    }

    fn alone(&self, name: &str, book: &[u8]) -> Result<()> {
        self.run(&format!("{name} alone, 60 runs"), book, TIMES)
    }

    /// Runs both programs in turn and prints their best times.
    fn run(&self, setting: &str, input: &[u8], runs: usize) -> Result<()> {
        let input_file = self.directory.join("input");
        std::fs::write(&input_file, input)?;
        let [proved_output, plain_output] =
            ["proved", "plain"].map(|name| self.directory.join(name));
        let mut proved = Vec::new();
        let mut plain = Vec::new();
        for _ in 0..runs {
            proved.push(timed_run(&self.proved, &input_file, &proved_output)?);
            plain.push(timed_run(&self.plain, &input_file, &plain_output)?);
        }
        if std::fs::read(proved_output)? != std::fs::read(plain_output)? {
            return Err(Error::other(format!("{setting}: the outputs differ")));
        }
        println!("{setting}");
        println!(
            "  input: {} bytes, {} records",
            input.len(),
            records(input).len()
        );
        print_times("proved", &self.proved, &proved);
        print_times("plain", &self.plain, &plain);
        let ratio = best(&proved).as_secs_f64() / best(&plain).as_secs_f64();
        println!("  ratio of the best times, proved to plain: {ratio:.2}");
        Ok(())
    }
}

fn print_times(name: &str, program: &Path, times: &[Duration]) {
    let milliseconds = |time: Duration| time.as_secs_f64() * 1_000.0;
    println!(
        "  {name}: best of {} runs {:.2} ms, all together {:.2} ms ({})",
        times.len(),
        milliseconds(best(times)),
        milliseconds(times.iter().sum()),
        program.display()
    );
}

fn best(times: &[Duration]) -> Duration {
    times.iter().min().copied().unwrap_or_default()
}
