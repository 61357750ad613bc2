//! What is stored with `test_years`: a misreading of document 01 changes its
//! closings, so that a program with that misreading fails the stored run.

mod common;

use common::{payments, worked_back};
use reference::book::{Book, DeclaredLine};
use reference::factor::{half_year_factor, published};
use reference::kinds::{Letter, FIRST_YEAR};
use reference::record::{read, Request};
use reference::reserve::Row;
use reference::run::records;
use reference::stored_input::stored_input;

/// A YEAR of the stored input, the book before it and the closing after it.
struct YearEnd {
    letter: Letter,
    year: u64,
    rows: Vec<Row>,
    book: Book,
    closing: u64,
}

fn year_ends(name: char) -> Vec<YearEnd> {
    let input = stored_input("test_years").expect("a program's name");
    let mut book = Book::default();
    let mut year_ends = Vec::new();
    for line in records(&input) {
        let before = book.clone();
        book.answer(line);
        let accepted = book.accepted > before.accepted;
        match read(line) {
            Ok(Request::Year { letter, year, rows }) if accepted && letter.character() == name => {
                let closing = book.lines[&letter].opening();
                let book = before;
                year_ends.push(YearEnd {
                    letter,
                    year,
                    rows,
                    book,
                    closing,
                });
            }
            _ => {}
        }
    }
    year_ends
}

impl YearEnd {
    fn line(&self) -> &DeclaredLine {
        &self.book.lines[&self.letter]
    }

    /// The closing when the age rows have these published factors; the prior
    /// row has its own.
    fn closing_with(&self, factor: impl Fn(usize) -> u64) -> u64 {
        let ages = self.letter.kind().ages();
        let own = self.line().pattern(self.year).expect("kept");
        let prior = self.rows[ages].discounted(published(own.factors.composite()));
        let age_rows = (1..=ages).map(|age| self.rows[age - 1].discounted(factor(age)));
        age_rows.sum::<u64>() + prior
    }

    /// The published factor of an age, from the pattern of an accident year
    /// worked back with this half-year factor and this rate.
    fn worked_back(&self, accident_year: u64, age: usize, half_year: u64, rate: u64) -> u64 {
        let kept = self.line().pattern(accident_year).expect("kept");
        published(worked_back(&payments(&kept.pattern), half_year, rate)[age - 1])
    }

    fn accident_year(&self, age: usize) -> u64 {
        self.year + 1 - age as u64
    }

    fn as_it_is(&self) -> u64 {
        self.closing_with(|age| {
            let accident_year = self.accident_year(age);
            let rate = self.book.rates[&accident_year];
            self.worked_back(accident_year, age, half_year_factor(rate), rate)
        })
    }

    fn with_a_fresh_rate(&self) -> u64 {
        let rate = self.book.rates[&self.year];
        self.closing_with(|age| {
            self.worked_back(self.accident_year(age), age, half_year_factor(rate), rate)
        })
    }

    fn discounted_by_whole_years(&self) -> u64 {
        self.closing_with(|age| {
            let accident_year = self.accident_year(age);
            let rate = self.book.rates[&accident_year];
            let whole_year = 10_000_000_000 * 10_000 / (10_000 + rate);
            self.worked_back(accident_year, age, whole_year, rate)
        })
    }

    /// The pattern of the accident year after the row's own, and of the first
    /// kept year for the youngest row.
    fn with_the_slot_beside(&self) -> u64 {
        let ages = self.letter.kind().ages();
        self.closing_with(|age| {
            let accident_year = match age {
                1 => self.accident_year(ages),
                _ => self.accident_year(age - 1),
            };
            let kept = self.line().pattern(accident_year).expect("kept");
            published(kept.factors.kept(age))
        })
    }

    /// The stated reserve multiplied by the factor too.
    fn with_a_multiplied_cap(&self) -> u64 {
        let without_tabular = self.rows.iter().map(|row| Row {
            tabular_discount: 0,
            ..*row
        });
        let rows = without_tabular.collect();
        let other = YearEnd {
            rows,
            book: self.book.clone(),
            ..*self
        };
        other.as_it_is()
    }
}

#[test]
fn every_row_of_every_closing_has_a_reserve() {
    for (name, closings, rows) in [('D', 16, 11), ('S', 24, 3)] {
        let year_ends = year_ends(name);
        assert_eq!(year_ends.len(), closings);
        for year_end in &year_ends {
            assert_eq!(year_end.rows.len(), rows);
            assert!(year_end.rows.iter().all(|row| row.gross() > 0));
            assert_eq!(year_end.as_it_is(), year_end.closing);
        }
        let all = || year_ends.iter().flat_map(|year_end| &year_end.rows);
        assert!(all().filter(|row| row.paid < 0).count() >= 12);
        assert!(all().filter(|row| row.tabular_discount > 0).count() >= 12);
        for rows in year_ends.windows(2) {
            assert_eq!(rows[1].year, rows[0].year + 1);
            assert!(rows[0].year > FIRST_YEAR);
        }
    }
}

#[test]
fn every_closing_is_the_next_opening_and_no_two_are_the_same() {
    for name in ['D', 'S'] {
        let year_ends = year_ends(name);
        for pair in year_ends.windows(2) {
            assert_eq!(pair[1].line().opening(), pair[0].closing);
            assert_ne!(pair[0].closing, pair[1].closing);
            assert_ne!(pair[0].closing, pair[0].line().declared_opening);
        }
    }
}

/// All closings of the ten-year line, and at least twelve of the other.
fn changes(misread: impl Fn(&YearEnd) -> u64) {
    for (name, least) in [('D', 16), ('S', 12)] {
        let year_ends = year_ends(name);
        let changed = year_ends
            .iter()
            .filter(|year_end| misread(year_end) != year_end.closing)
            .count();
        assert!(changed >= least, "{name}: {changed}");
    }
}

#[test]
fn a_fresh_rate_for_an_old_accident_year_changes_the_closings() {
    changes(YearEnd::with_a_fresh_rate);
}

#[test]
fn discounting_by_whole_years_changes_the_closings() {
    changes(YearEnd::discounted_by_whole_years);
}

#[test]
fn the_pattern_of_another_year_changes_the_closings() {
    changes(YearEnd::with_the_slot_beside);
}

#[test]
fn multiplying_the_side_of_the_cap_changes_the_closings() {
    changes(YearEnd::with_a_multiplied_cap);
}
