//! Helps of the tests: records are written with spaces for tabs.
#![allow(dead_code, unused_imports)]

use std::path::PathBuf;

use reference::answer::Answer;
use reference::book::Book;
use reference::input_text::ended_records;
pub use reference::input_text::{flat_pattern, line, rate, repeated};
use reference::pattern::{cumulative_ratio, CumulativeRow, Pattern};
use reference::reserve::Row;
use reference::run::run;

/// A file that is stored with a program.
pub fn stored(program: &str, file: &str) -> Vec<u8> {
    let crates = PathBuf::from(env!("CARGO_MANIFEST_DIR")).join("../crates");
    let path = crates.join(program).join(file);
    std::fs::read(&path).unwrap_or_else(|error| panic!("{}: {error}", path.display()))
}

/// The book after some records, all of which are accepted.
pub fn book_after(records: &[&str]) -> Book {
    let mut book = Book::default();
    for record in records {
        let answer = book.answer(&line(record));
        assert!(!matches!(answer, Answer::No(_)), "{record}: {answer:?}");
    }
    book
}

/// The answer of a book to one record, with spaces for tabs, without byte 10.
pub fn answer(book: &mut Book, record: &str) -> String {
    answer_to_bytes(book, &line(record))
}

pub fn answer_to_bytes(book: &mut Book, line: &[u8]) -> String {
    let bytes = book.answer(line).bytes();
    let text = String::from_utf8(bytes).expect("answers are plain text");
    text.trim_end_matches('\n').replace('\t', " ")
}

/// The output lines of a run, with spaces for tabs.
pub fn output(input: &[u8]) -> Vec<String> {
    let text = String::from_utf8(run(input)).expect("answers are plain text");
    assert!(text.ends_with('\n'));
    text.lines().map(|line| line.replace('\t', " ")).collect()
}

/// The output lines for some records, each ended with byte 10.
pub fn output_of(records: &[&str]) -> Vec<String> {
    output(&ended_records(records))
}

/// The cumulative ratio of an age.
pub fn ratio(paid: u64, incurred: u64) -> u64 {
    cumulative_ratio(CumulativeRow { paid, incurred })
}

/// The discounted row of a reserve.
pub fn discounted(unpaid: u64, tabular_discount: u64, published_factor: u64) -> u64 {
    let row = Row {
        paid: 0,
        unpaid,
        tabular_discount,
    };
    row.discounted(published_factor)
}

/// The kept factors for any list of payments, which is how misread lists are
/// worked back.
pub fn worked_back(payments: &[u64], half_year: u64, rate: u64) -> Vec<u64> {
    let mut factors = vec![half_year];
    let mut unpaid = 0;
    for payment in payments[1..].iter().rev() {
        let next = u128::from(factors[0]) * 10_000 / u128::from(10_000 + rate);
        let later = u128::from(unpaid);
        unpaid += payment;
        let sum = u128::from(*payment) * u128::from(half_year) + later * next;
        let factor = sum.checked_div(u128::from(unpaid));
        factors.insert(0, factor.map_or(half_year, |factor| factor as u64));
    }
    factors
}

pub fn payments(pattern: &Pattern) -> Vec<u64> {
    (1..=pattern.last_age())
        .map(|age| pattern.payment(age))
        .collect()
}

/// A number with commas between its thousands.
pub fn commas(number: impl ToString) -> String {
    let number = number.to_string();
    let (mut text, digits) = match number.strip_prefix('-') {
        Some(digits) => ("-".to_string(), digits),
        None => (String::new(), number.as_str()),
    };
    for (place, digit) in digits.char_indices() {
        if place > 0 && (digits.len() - place) % 3 == 0 {
            text.push(',');
        }
        text.push(digit);
    }
    text
}
