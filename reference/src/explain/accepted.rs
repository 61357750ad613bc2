//! What the answer to an accepted record means.

use super::earlier_records::{EarlierRecords, Subject};
use super::line_names::described;
use super::months::span_words;
use super::pattern_sheet::PatternSheet;
use super::register_sheet::RegisterSheet;
use super::report::{labelled, paragraph, Block};
use super::shown::{capitalized, percent, thousands};
use super::totals_sheet::TotalsSheet;
use super::year_sheet::YearSheet;
use crate::answer::Answer;
use crate::book::Book;
use crate::kinds::Letter;
use crate::pattern::CumulativeRow;
use crate::rate::{accident_year_rate, MONTHS};
use crate::record::Request;
use crate::register::months_of_rate;
use crate::reserve::Row;

/// An accepted record: its answer, the book that it left, the lines before it.
pub struct Accepted<'a> {
    pub answer: &'a Answer,
    pub book: &'a Book,
    pub earlier: &'a EarlierRecords,
}

impl Accepted<'_> {
    pub fn blocks(&self, request: &Request) -> Vec<Block> {
        match request {
            Request::Line { letter, opening } => line_blocks(*letter, *opening),
            Request::Rate {
                year,
                monthly_rates,
            } => rate_blocks(*year, "The sixty monthly rates", monthly_rates),
            Request::RateOfRegister { year } => self.rate_of_register_blocks(*year),
            Request::MonthlyRate { month, rate } => {
                let (month, rate, book) = (*month, *rate, self.book);
                RegisterSheet { month, rate, book }.blocks()
            }
            Request::Pattern { letter, year, rows } => self.pattern_blocks(*letter, *year, rows),
            Request::Year { letter, year, rows } => self.year_blocks(*letter, *year, rows),
            Request::Sum { letter } => self.sum_blocks(*letter),
        }
    }

    fn rate_of_register_blocks(&self, year: u64) -> Vec<Block> {
        let months = months_of_rate(year);
        let window = span_words(months[0], months[MONTHS - 1]);
        let rates = self.book.register.rates_of(year).unwrap_or_default();
        let what = format!("The sixty rates of the register from {window}");
        rate_blocks(year, &what, &rates)
    }

    fn pattern_blocks(&self, letter: Letter, year: u64, rows: &[CumulativeRow]) -> Vec<Block> {
        let line = self.book.lines.get(&letter);
        let kept = line.and_then(|line| line.pattern(year));
        let (Some(kept), Some(rate)) = (kept, self.book.rates.get(&year)) else {
            return Vec::new();
        };
        let sheet = PatternSheet {
            letter,
            rows,
            rate: *rate,
            kept,
        };
        sheet.blocks()
    }

    fn year_blocks(&self, letter: Letter, year: u64, rows: &[Row]) -> Vec<Block> {
        let (Some(line), Answer::Tax { year_end, .. }) =
            (self.book.lines.get(&letter), self.answer)
        else {
            return Vec::new();
        };
        let sheet = YearSheet {
            letter,
            year,
            rows,
            line,
            year_end: *year_end,
            opening_from: self.opening_from(letter, year),
        };
        sheet.blocks()
    }

    fn sum_blocks(&self, letter: Letter) -> Vec<Block> {
        let Some(line) = self.book.lines.get(&letter) else {
            return Vec::new();
        };
        let closing_from = |year| self.earlier.line_of(Subject::of_year(letter, year));
        let sheet = TotalsSheet {
            letter,
            line,
            opening_from: self.earlier.line_of(Subject::of_line(letter)),
            closing_from: line
                .last_closed_year()
                .map_or_else(String::new, closing_from),
        };
        sheet.blocks()
    }

    /// "Opening is the last closing, or the declared opening."
    fn opening_from(&self, letter: Letter, year: u64) -> String {
        let before = Subject::of_year(letter, year - 1);
        match self.earlier.accepted(before) {
            Some(number) => format!("the closing of {} (line {number})", year - 1),
            None => {
                let declared = self.earlier.line_of(Subject::of_line(letter));
                format!("as declared{declared}")
            }
        }
    }
}

fn line_blocks(letter: Letter, opening: u64) -> Vec<Block> {
    vec![paragraph(format!(
        "{} begins. Its opening, the discounted reserve before its first year end in the book, \
         is {}.",
        capitalized(&described(letter)),
        thousands(opening)
    ))]
}

/// A RATE, and what its sixty rates are.
fn rate_blocks(year: u64, what: &str, monthly_rates: &[u64]) -> Vec<Block> {
    let sum: u64 = monthly_rates.iter().sum();
    let rate = accident_year_rate(monthly_rates);
    let sum = thousands(sum);
    vec![
        paragraph(format!(
            "{what} sum to {sum}. Accident year {year} is discounted at {}, in every line and for \
             good.",
            percent(rate)
        )),
        labelled(
            "rate",
            format!("({sum} + 30) / 60 = {}, rounded down", thousands(rate)),
        ),
    ]
}
