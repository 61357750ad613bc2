//! The input of the speed comparison.

mod common;

use common::output;
use reference::kinds::{Letter, FIRST_YEAR, LAST_YEAR};
use reference::record::{read, Request};
use reference::run::records;
use reference::whole_book::{whole_book, whole_book_of_patterns, whole_book_of_register, SEED};
use reference::whole_book::{RECORDS, RECORDS_OF_PATTERNS, RECORDS_OF_REGISTER};

#[test]
fn every_record_of_the_book_is_accepted() {
    assert_eq!(RECORDS, 3_518);
    let lines = output(&whole_book(SEED));
    assert_eq!(lines.len(), RECORDS + 1);
    assert_eq!(lines[RECORDS], "DONE 3518 0");
}

#[test]
fn a_second_time_every_record_is_refused_with_7_or_10() {
    let lines = output(&whole_book(SEED).repeat(2));
    let refused = &lines[RECORDS..2 * RECORDS];
    assert!(refused.iter().all(|line| line == "NO 7" || line == "NO 10"));
    assert_eq!(lines[2 * RECORDS], "DONE 3518 3518");
}

/// All rates come from the register, each month from 1980 to 2099 is given, and
/// the other answers are those of the book with its own rates.
#[test]
fn the_book_of_the_register_has_the_same_answers() {
    let book = whole_book_of_register(SEED);
    let long = records(&book)
        .into_iter()
        .filter(|line| matches!(read(line), Ok(Request::Rate { .. })));
    assert_eq!(long.count(), 0);
    let mut lines = output(&book);
    assert_eq!(lines.len(), RECORDS_OF_REGISTER + 1);
    assert_eq!(lines.pop().as_deref(), Some("DONE 4958 0"));
    lines.retain(|line| !line.starts_with("MIDT "));
    let own = output(&whole_book(SEED));
    assert_eq!(lines, own[..RECORDS]);
    assert_eq!(RECORDS_OF_REGISTER - RECORDS, 1_440);
}

/// Without the year ends every other answer is the same.
#[test]
fn the_book_of_patterns_has_the_same_factors() {
    assert_eq!(RECORDS_OF_PATTERNS, 1_823);
    let mut lines = output(&whole_book_of_patterns(SEED));
    assert_eq!(lines.pop().as_deref(), Some("DONE 1823 0"));
    let mut whole = output(&whole_book(SEED));
    whole.retain(|line| !line.starts_with("TAX ") && !line.starts_with("DONE "));
    assert_eq!(lines, whole);
}

#[test]
fn every_letter_has_every_year_and_the_numbers_vary() {
    let book = whole_book(SEED);
    let (mut year_ends, mut negative, mut tabular) = (Vec::new(), 0, 0);
    for line in records(&book) {
        match read(line).expect("accepted") {
            Request::Year { letter, year, rows } => {
                year_ends.push((letter, year));
                negative += rows.iter().filter(|row| row.paid < 0).count();
                tabular += rows.iter().filter(|row| row.tabular_discount > 0).count();
            }
            Request::Rate { monthly_rates, .. } => {
                let mut rates = monthly_rates;
                rates.sort_unstable();
                rates.dedup();
                assert!(rates.len() > 20, "{rates:?}");
            }
            _ => {}
        }
    }
    assert!(negative > 500 && tabular > 500, "{negative} {tabular}");
    year_ends.sort_unstable();
    let mut letters = Letter::all();
    letters.sort_unstable();
    let years = || FIRST_YEAR..=LAST_YEAR;
    let each = letters
        .iter()
        .flat_map(|letter| years().map(|year| (*letter, year)));
    assert!(each.eq(year_ends));
}
