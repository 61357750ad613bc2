//! Random input in which every answer and every refusal number occurs.

use std::ops::RangeInclusive;

use crate::accepted_record::{line_of, next_record, rate_record, sum_of_some_line, Fields};
use crate::book::Book;
use crate::kinds::{Letter, FIRST_YEAR, LAST_YEAR};
use crate::random::Random;
use crate::refused_record::refused_line;
use crate::register_record::{next_month_record, short_rate_lacking, years_to_fill};

/// The lines of one stream are at most this many, so that one letter always
/// stays undeclared.
const MOST_LINES: usize = 14;

/// About so many records a book can accept before its lines have come to their
/// last years.
const RECORDS_TO_ACCEPT: usize = 2_000;

/// One record in so many is a SUM of a declared line, in a long stream too.
const SUM_ONCE_IN: u64 = 10;

/// At first every second record is a MIDT of a month that is still to be given, so
/// that short RATEs come in time, and later one in so many.
const RECORDS_WITH_MANY_MONTHS: usize = 250;
const MONTH_ONCE_IN: usize = 8;

/// About so many months are given at most, of the 1,440 that there are.
const MONTHS_TO_GIVE: usize = 1_000;

/// One record to accept in so many is a short RATE, if one can be accepted.
const SHORT_RATE_ONCE_IN: u64 = 8;

/// A random stream of so many records. It follows a book, so that about half
/// of the records are accepted, and fewer in a long stream, whose lines would
/// come to their last years too soon.
pub fn random_stream(seed: u64, records: usize) -> Vec<u8> {
    let mut random = Random::new(seed);
    let letters = random.shuffled(&Letter::all());
    let years = years_of_patterns(&mut random);
    let years_to_fill = years_to_fill(&mut random);
    let accept_once_in = (records / RECORDS_TO_ACCEPT).max(2) as u64;
    let month_once_in = (records / MONTHS_TO_GIVE).max(MONTH_ONCE_IN) as u64;
    let records_with_many_months = RECORDS_WITH_MANY_MONTHS.min(records / 4);
    let mut book = Book::default();
    let mut stream = Vec::new();
    for number in 0..records {
        // The lines come in one after another over the whole stream.
        let lines = (2 + number * MOST_LINES / records).min(MOST_LINES);
        let has_many_months = number < records_with_many_months;
        let line = if random.once_in(SUM_ONCE_IN) {
            line_to_sum(&mut random, &book)
        } else if random.once_in(if has_many_months { 2 } else { month_once_in }) {
            line_of_register(&mut random, &book, &years_to_fill)
        } else if random.once_in(accept_once_in) {
            line_to_accept(&mut random, &book, &letters[..lines], &years)
        } else {
            line_to_refuse(&mut random, &book)
        };
        book.answer(&line);
        stream.extend(line);
        stream.push(b'\n');
    }
    // An empty last line needs its byte 10.
    let last_is_empty = stream == b"\n" || stream.ends_with(b"\n\n");
    if random.once_in(2) && !last_is_empty {
        stream.pop();
    }
    stream
}

/// One year or more next to either end never gets a rate, so that question 9 can
/// always be answered "no".
fn years_of_patterns(random: &mut Random) -> RangeInclusive<u64> {
    match random.below(3) {
        0 => FIRST_YEAR..=LAST_YEAR - 2,
        1 => FIRST_YEAR + 2..=LAST_YEAR,
        _ => FIRST_YEAR + 4..=LAST_YEAR,
    }
}

/// A short RATE of a year of patterns, or of the first or the last year.
fn accepted_short_rate(
    random: &mut Random,
    book: &Book,
    years: &RangeInclusive<u64>,
) -> Option<Fields> {
    let ends = [FIRST_YEAR, LAST_YEAR];
    let gets_rate = |year: u64| years.contains(&year) || ends.contains(&year);
    short_rate_lacking(random, book, 0, gets_rate)
}

/// A MIDT of a month that is still to be given, if there is one; now and then a
/// short RATE that lacks a single month.
fn line_of_register(random: &mut Random, book: &Book, years_to_fill: &[u64]) -> Vec<u8> {
    let lacking_one = if random.once_in(6) {
        short_rate_lacking(random, book, 1, |_| true)
    } else {
        None
    };
    let record = lacking_one.or_else(|| next_month_record(random, book, years_to_fill));
    record.map_or_else(|| line_to_refuse(random, book), line_of)
}

/// A SUM of a declared line. Before the first LINE there is none.
fn line_to_sum(random: &mut Random, book: &Book) -> Vec<u8> {
    let record = sum_of_some_line(random, book);
    record.map_or_else(|| line_to_refuse(random, book), line_of)
}

/// The next record of a line chosen at random, or of a line after it that has
/// years to come; now and then a RATE of either form.
fn line_to_accept(
    random: &mut Random,
    book: &Book,
    letters: &[Letter],
    years: &RangeInclusive<u64>,
) -> Vec<u8> {
    if random.once_in(SHORT_RATE_ONCE_IN) {
        if let Some(record) = accepted_short_rate(random, book, years) {
            return line_of(record);
        }
    }
    if random.once_in(20) {
        let year = random.between(*years.start(), *years.end());
        return line_of(rate_record(random, year));
    }
    // Of two places the lower is taken, so that the first lines come furthest.
    let places = [random.place(letters.len()), random.place(letters.len())];
    let place = places[0].min(places[1]);
    let in_order = letters[place..].iter().chain(&letters[..place]);
    let mut records = in_order.map(|letter| next_record(random, book, *letter, years));
    let record = records.find_map(|record| record);
    record.map_or_else(|| line_to_refuse(random, book), line_of)
}

/// A record to refuse with a random number, or with 1 to 6 if the book's state
/// has none for that number. The numbers that need a state of their own are
/// tried more often.
fn line_to_refuse(random: &mut Random, book: &Book) -> Vec<u8> {
    let numbers = [1, 2, 3, 4, 5, 6, 7, 7, 8, 9, 10, 11, 12, 13, 13, 14, 14];
    let number = random.choice(&numbers);
    let other_number = random.between(1, 6) as u8;
    refused_line(random, book, number)
        .or_else(|| refused_line(random, book, other_number))
        .unwrap_or_default()
}
