//! SUM: "The figures equal the sums over the accepted YEAR records of that line,
//! and once a year is closed, losses less paid are the last closing less the
//! declared opening."

mod common;

use std::collections::BTreeMap;

use common::{answer, book_after, output, output_of, rate, repeated, stored};
use reference::answer::Answer;
use reference::book::Book;
use reference::kinds::Letter;
use reference::largest_totals;
use reference::record::{read, Request};
use reference::run::records;
use reference::stream::random_stream;
use reference::totals::Totals;

/// What the records and answers of a line have shown so far.
#[derive(Default)]
struct Shown {
    declared_opening: i128,
    closed_years: i128,
    paid: i128,
    losses: i128,
    last_closing: i128,
}

impl Shown {
    /// Takes in the closing of a year: every third field of a YEAR from the
    /// fourth on is a paid.
    fn close(&mut self, record: &str, tax: &[&str]) {
        let paid = record.split('\t').skip(3).step_by(3).map(number);
        self.closed_years += 1;
        self.paid += paid.sum::<i128>();
        self.last_closing = number(tax[5]);
        self.losses += number(tax[6]);
    }

    fn check(&self, sum: &[&str]) {
        let figures: Vec<i128> = sum[2..].iter().map(|field| number(field)).collect();
        assert_eq!(figures, [self.closed_years, self.paid, self.losses]);
        if self.closed_years == 0 {
            assert_eq!(figures, [0, 0, 0]);
        } else {
            let difference = self.last_closing - self.declared_opening;
            assert_eq!(self.losses - self.paid, difference, "{sum:?}");
        }
    }
}

fn number(field: &str) -> i128 {
    field.parse().unwrap_or_else(|_| panic!("{field}"))
}

/// Checks every SUM of a run from the text of its records and answers alone, and
/// tells how many there are of lines with no closed year and of others.
fn checked_sums(input: &[u8]) -> [usize; 2] {
    let mut lines: BTreeMap<String, Shown> = BTreeMap::new();
    let mut sums = [0, 0];
    for (record, answer) in records(input).into_iter().zip(output(input)) {
        let fields: Vec<&str> = answer.split(' ').collect();
        let line = lines.entry(fields[1].to_string()).or_default();
        match fields[0] {
            "LINE" => line.declared_opening = number(fields[2]),
            "TAX" => line.close(&String::from_utf8_lossy(record), &fields),
            "SUM" => {
                line.check(&fields);
                sums[usize::from(line.closed_years > 0)] += 1;
            }
            _ => {}
        }
    }
    sums
}

#[test]
fn every_sum_of_random_streams_is_that_of_its_years() {
    for seed in 200..212 {
        let [with_no_year, others] = checked_sums(&random_stream(seed, 1_500));
        assert!(with_no_year > 10 && others > 50, "seed {seed}");
    }
}

#[test]
fn every_stored_sum_is_that_of_its_years() {
    for (program, least) in [("test_edges", 100), ("test_random", 400), ("test_years", 2)] {
        let [with_no_year, others] = checked_sums(&stored(program, "stdin"));
        assert!(with_no_year + others >= least, "{program}");
    }
}

fn totals(book: &Book) -> BTreeMap<Letter, Totals> {
    let lines = book.lines.iter();
    lines.map(|(letter, line)| (*letter, line.totals)).collect()
}

/// The letter whose year a record has closed, if it has.
fn closed_line(record: &[u8], answer: &Answer) -> Option<Letter> {
    match (read(record), answer) {
        (Ok(Request::Year { letter, .. }), Answer::Tax { .. }) => Some(letter),
        _ => None,
    }
}

/// Only an accepted YEAR moves totals, and those of its own line alone.
fn check_moved(before: &Book, after: &Book, closed: Option<Letter>) {
    let before = totals(before);
    for (letter, after) in totals(after) {
        let before = before.get(&letter).copied().unwrap_or_default();
        let closings = u64::from(closed == Some(letter));
        assert_eq!(after.closed_years, before.closed_years + closings);
        assert!(after == before || closings == 1);
    }
}

#[test]
fn no_other_record_moves_a_total() {
    let mut book = Book::default();
    for record in records(&random_stream(212, 3_000)) {
        let before = book.clone();
        let answer = book.answer(record);
        check_moved(&before, &book, closed_line(record, &answer));
    }
}

/// A SUM leaves the book as it was but for the accepted count.
#[test]
fn a_sum_changes_nothing_but_the_accepted_count() {
    let mut book = Book::default();
    for record in records(&random_stream(213, 1_500)) {
        book.answer(record);
    }
    for (letter, _) in totals(&book) {
        let mut after = book.clone();
        answer(&mut after, &format!("SUM {}", letter.character()));
        let accepted = book.accepted + 1;
        assert_eq!(
            after,
            Book {
                accepted,
                ..book.clone()
            }
        );
    }
}

#[test]
fn a_line_with_no_closed_year_has_zeros() {
    let mut book = Book::default();
    assert_eq!(answer(&mut book, "SUM J"), "NO 8");
    answer(&mut book, "LINE J 70");
    assert_eq!(answer(&mut book, "SUM J"), "SUM J 0 0 0");
    answer(&mut book, &rate(2015, 0));
    answer(&mut book, "PATT J 2015 50 100 90 100");
    assert_eq!(answer(&mut book, "SUM J"), "SUM J 0 0 0");
    let without_pattern = "YEAR J 2015 5 0 0 0 1 0 0 0 0";
    assert_eq!(answer(&mut book, without_pattern), "NO 13");
    assert_eq!(answer(&mut book, "SUM J"), "SUM J 0 0 0");
}

/// A closing of nothing is counted too, and figures that come back to 0 have no
/// minus sign.
#[test]
fn figures_may_fall_below_zero_and_come_back() {
    let mut book = book_after(&["LINE J 70", "LINE K 5"]);
    let years = [
        ("-9 30 0 0 0 0 0 0 0", "SUM J 1 -9 -49"),
        ("4 75 0 0 0 0 0 0 0", "SUM J 2 -5 0"),
        ("5 70 0 0 0 0 0 0 0", "SUM J 3 0 0"),
        ("0 0 0 0 0 0 0 0 0", "SUM J 4 0 -70"),
    ];
    for (year, (rows, sum)) in (2015..).zip(years) {
        answer(&mut book, &rate(year, 0));
        answer(&mut book, &format!("PATT J {year} 50 100 90 100"));
        answer(&mut book, &format!("YEAR J {year} {rows}"));
        assert_eq!(answer(&mut book, "SUM J"), sum);
        assert_eq!(answer(&mut book, "SUM K"), "SUM K 0 0 0");
    }
}

/// Of 113 years each pays at most 110,000,000,000 either way, and the closing
/// and the opening are at most 110,000,000,000 and 100,000,000,000.
#[test]
fn the_largest_totals() {
    let lines = output(&largest_totals::input());
    let sums: Vec<&String> = lines
        .iter()
        .filter(|line| line.starts_with("SUM"))
        .collect();
    assert_eq!(sums.len(), 2 * 113);
    assert_eq!(sums[0], "SUM A 1 110000000000 110000000000");
    assert_eq!(sums[1], "SUM R 1 -110000000000 -210000000000");
    assert_eq!(sums[224], "SUM A 113 12430000000000 12540000000000");
    assert_eq!(sums[225], "SUM R 113 -12430000000000 -12530000000000");
    assert!(lines.last().is_some_and(|done| done.ends_with(" 0")));
}

/// The sums of document 01's run: its losses less its paid are 8 less 0.
#[test]
fn the_run_of_document_01_with_a_sum() {
    let sixty = repeated("2100", 60);
    let (first, second) = (format!("RATE 2015 {sixty}"), format!("RATE 2016 {sixty}"));
    let records = [
        "LINE J 0",
        &first,
        "PATT J 2015 50 100 90 100",
        "YEAR J 2015 50 50 0 0 0 0 0 0 0",
        "YEAR J 2015 50 50 0 0 0 0 0 0 0",
        &second,
        "PATT J 2016 50 100 90 100",
        "YEAR J 2016 0 0 0 40 10 0 0 0 0",
        "SUM J",
    ];
    assert_eq!(output_of(&records)[8..], ["SUM J 2 90 98", "DONE 8 1"]);
}
