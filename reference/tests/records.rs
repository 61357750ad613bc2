//! What each line of a stored input asks, as the proved program `test_records`
//! prints it: read here by the other implementation.

use reference::kinds::Letter;
use reference::record::{read, Request};
use reference::run::records;

/// The input and the output that are stored with the program.
const INPUT: &[u8] = include_bytes!("../../crates/test_records/stdin");
const STORED: &str = include_str!("../../crates/test_records/stdout");

/// The program's line: NO and a question, or a word and all that is asked. Its
/// lists have ten ages or eleven rows, with zeros past those of the line.
fn line(bytes: &[u8]) -> String {
    match read(bytes) {
        Err(question) => format!("NO {}", question.number()),
        Ok(Request::Line { letter, opening }) => {
            format!("LINE {} {opening}", letter.character())
        }
        Ok(Request::Rate {
            year,
            monthly_rates,
        }) => format!("RATE {year} {}", list(monthly_rates, 60)),
        Ok(Request::RateOfRegister { year }) => format!("RATE {year}"),
        Ok(Request::MonthlyRate { month, rate }) => {
            format!("MIDT {} {} {rate}", month.year, month.number)
        }
        Ok(Request::Pattern { letter, year, rows }) => {
            let paid = rows.iter().map(|row| row.paid).collect();
            let incurred = rows.iter().map(|row| row.incurred).collect();
            let lists = [list(paid, 10), list(incurred, 10)];
            named("PATT", letter, year, &lists)
        }
        Ok(Request::Year { letter, year, rows }) => {
            let paid = rows.iter().map(|row| row.paid).collect();
            let unpaid = rows.iter().map(|row| row.unpaid).collect();
            let tabular = rows.iter().map(|row| row.tabular_discount).collect();
            let lists = [list(paid, 11), list(unpaid, 11), list(tabular, 11)];
            named("YEAR", letter, year, &lists)
        }
        Ok(Request::Sum { letter }) => format!("SUM {}", letter.character()),
    }
}

fn named(word: &str, letter: Letter, year: u64, lists: &[String]) -> String {
    format!("{word} {} {year} {}", letter.character(), lists.join(" "))
}

/// The numbers, and zeros up to the length.
fn list<T: ToString + Default + Clone>(mut numbers: Vec<T>, length: usize) -> String {
    numbers.resize(length, T::default());
    let texts: Vec<String> = numbers.iter().map(T::to_string).collect();
    texts.join(" ")
}

#[test]
fn lines_ask_what_the_proved_program_prints() {
    let lines = records(INPUT);
    let stored: Vec<&str> = STORED.lines().collect();
    assert_eq!(stored.len(), lines.len());
    for (place, bytes) in lines.iter().enumerate() {
        assert_eq!(stored[place], line(bytes), "line {}", place + 1);
    }
}

#[test]
fn every_question_and_every_kind_occurs() {
    for start in [
        "NO 1", "NO 2", "NO 3", "NO 4", "NO 5", "NO 6", "LINE", "RATE", "PATT", "YEAR", "SUM",
        "MIDT",
    ] {
        let count = STORED
            .lines()
            .filter(|line| line.starts_with(start))
            .count();
        assert!(count >= 3, "{start}: {count}");
    }
}
