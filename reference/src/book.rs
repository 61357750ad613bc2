//! The book: its state, and questions 7 to 14.

use std::collections::BTreeMap;

use crate::answer::Answer;
use crate::factor::{published, Factors};
use crate::kinds::Letter;
use crate::pattern::{cumulative_ratio, CumulativeRow, Pattern};
use crate::question::Question;
use crate::rate::accident_year_rate;
use crate::record::{read, Request};
use crate::register::{Month, Register};
use crate::reserve::{year_end, Row};
use crate::totals::Totals;

/// The pattern of one accident year, with its factors.
#[derive(Clone, Debug, PartialEq, Eq)]
pub struct KeptPattern {
    pub accident_year: u64,
    pub pattern: Pattern,
    pub factors: Factors,
}

/// A year's closing.
#[derive(Clone, Copy, Debug, PartialEq, Eq)]
pub struct Closing {
    pub year: u64,
    pub amount: u64,
}

/// A line that a LINE record has declared.
#[derive(Clone, Debug, PartialEq, Eq)]
pub struct DeclaredLine {
    pub declared_opening: u64,
    /// Oldest first.
    pub patterns: Vec<KeptPattern>,
    pub last_closing: Option<Closing>,
    pub totals: Totals,
}

impl DeclaredLine {
    fn new(declared_opening: u64) -> DeclaredLine {
        DeclaredLine {
            declared_opening,
            patterns: Vec::new(),
            last_closing: None,
            totals: Totals::default(),
        }
    }

    /// The year of the line's last pattern.
    pub fn last_pattern_year(&self) -> Option<u64> {
        self.patterns.last().map(|kept| kept.accident_year)
    }

    pub fn last_closed_year(&self) -> Option<u64> {
        self.last_closing.map(|closing| closing.year)
    }

    pub fn pattern(&self, accident_year: u64) -> Option<&KeptPattern> {
        let mut patterns = self.patterns.iter();
        patterns.find(|kept| kept.accident_year == accident_year)
    }

    /// "Row of age a in year Y takes the pattern of accident year Y - a + 1."
    pub fn pattern_of_row(&self, year: u64, age: usize) -> Option<&KeptPattern> {
        self.pattern(year + 1 - age as u64)
    }

    /// "Opening is the last closing, or the declared opening."
    pub fn opening(&self) -> u64 {
        self.last_closing
            .map_or(self.declared_opening, |closing| closing.amount)
    }

    /// Question 10 for PATT.
    pub fn takes_pattern(&self, year: u64) -> bool {
        match (self.last_pattern_year(), self.last_closed_year()) {
            (None, _) => true,
            (Some(last), None) => year == last + 1,
            (Some(last), Some(closed)) => year == last + 1 && closed == last,
        }
    }

    /// Question 10 for YEAR.
    pub fn takes_year(&self, year: u64) -> bool {
        self.last_pattern_year() == Some(year) && self.last_closed_year() != Some(year)
    }

    /// Question 13: it is put to age rows, not to the prior row.
    fn keeps_patterns_for(&self, year: u64, age_rows: &[Row]) -> bool {
        let mut ages = (1..).zip(age_rows);
        ages.all(|(age, row)| row.gross() == 0 || self.pattern_of_row(year, age).is_some())
    }

    /// "A line keeps its latest ten patterns (two-year: two)."
    fn keep(&mut self, pattern: KeptPattern, patterns_kept: usize) {
        self.patterns.push(pattern);
        if self.patterns.len() > patterns_kept {
            self.patterns.remove(0);
        }
    }

    /// The published factor of each row, where a pattern is kept for it: "the
    /// prior row takes the composite of accident year Y".
    pub fn published_factors(&self, year: u64, ages: usize) -> Vec<Option<u64>> {
        let mut factors = Vec::new();
        for age in 1..=ages {
            let kept = self.pattern_of_row(year, age);
            factors.push(kept.map(|kept| published(kept.factors.kept(age))));
        }
        let own = self.pattern(year);
        factors.push(own.map(|kept| published(kept.factors.composite())));
        factors
    }
}

/// "An empty book has no line, rate, pattern or closing, and both counts are 0."
/// Its register has no month.
#[derive(Clone, Debug, Default, PartialEq, Eq)]
pub struct Book {
    pub lines: BTreeMap<Letter, DeclaredLine>,
    pub rates: BTreeMap<u64, u64>,
    pub register: Register,
    pub accepted: u64,
    pub refused: u64,
}

impl Book {
    /// The answer to the record in a line: "Without a 'no' the record is
    /// accepted and the accepted count is one higher. Either count stops at
    /// 2^64 - 1."
    pub fn answer(&mut self, line: &[u8]) -> Answer {
        self.answer_request(read(line))
    }

    /// The answer to a line that has been read.
    pub fn answer_request(&mut self, request: Result<Request, Question>) -> Answer {
        match request.and_then(|request| self.accept(request)) {
            Ok(answer) => {
                self.accepted = self.accepted.saturating_add(1);
                answer
            }
            Err(question) => {
                self.refused = self.refused.saturating_add(1);
                Answer::No(question)
            }
        }
    }

    /// Questions 7 to 14; a "no" leaves lines, rates, the register, patterns and
    /// closings as they were.
    fn accept(&mut self, request: Request) -> Result<Answer, Question> {
        match request {
            Request::Line { letter, opening } => self.declare(letter, opening),
            Request::Rate {
                year,
                monthly_rates,
            } => self.give_rate(year, &monthly_rates),
            Request::RateOfRegister { year } => self.give_rate_of_register(year),
            Request::MonthlyRate { month, rate } => self.give_monthly_rate(month, rate),
            Request::Pattern { letter, year, rows } => self.give_pattern(letter, year, &rows),
            Request::Year { letter, year, rows } => self.close_year(letter, year, &rows),
            Request::Sum { letter } => self.sum(letter),
        }
    }

    fn declare(&mut self, letter: Letter, opening: u64) -> Result<Answer, Question> {
        require(!self.lines.contains_key(&letter), Question::StillToBeGiven)?;
        self.lines.insert(letter, DeclaredLine::new(opening));
        Ok(Answer::Line { letter, opening })
    }

    /// "It is given once and stays."
    fn give_rate(&mut self, year: u64, monthly_rates: &[u64]) -> Result<Answer, Question> {
        require(!self.rates.contains_key(&year), Question::StillToBeGiven)?;
        let rate = accident_year_rate(monthly_rates);
        self.rates.insert(year, rate);
        Ok(Answer::Rate { year, rate })
    }

    /// "RATE with a year alone then takes the sixty months", and question 14 is
    /// asked after 7.
    fn give_rate_of_register(&mut self, year: u64) -> Result<Answer, Question> {
        require(!self.rates.contains_key(&year), Question::StillToBeGiven)?;
        let monthly_rates = self.register.rates_of(year);
        self.give_rate(year, &monthly_rates.ok_or(Question::MonthsGiven)?)
    }

    /// It "stores one federal mid-term rate, once".
    fn give_monthly_rate(&mut self, month: Month, rate: u64) -> Result<Answer, Question> {
        let is_given = self.register.rate(month).is_some();
        require(!is_given, Question::StillToBeGiven)?;
        self.register.store(month, rate);
        Ok(Answer::MonthlyRate { month, rate })
    }

    fn give_pattern(
        &mut self,
        letter: Letter,
        year: u64,
        rows: &[CumulativeRow],
    ) -> Result<Answer, Question> {
        let line = self.lines.get_mut(&letter);
        let line = line.ok_or(Question::LineDeclared)?;
        let rate = *self.rates.get(&year).ok_or(Question::YearHasRate)?;
        require(line.takes_pattern(year), Question::YearInTurn)?;
        let within = |row: &CumulativeRow| row.incurred > 0 && row.paid <= row.incurred;
        require(rows.iter().all(within), Question::PaidWithinIncurred)?;
        let ratios: Vec<u64> = rows.iter().map(|row| cumulative_ratio(*row)).collect();
        require(ratios.is_sorted(), Question::NoRatioFalls)?;
        let kind = letter.kind();
        let pattern = Pattern::new(kind, &ratios);
        let factors = Factors::new(kind, &pattern, rate);
        let answer = factors_answer(letter, year, &factors);
        let kept = KeptPattern {
            accident_year: year,
            pattern,
            factors,
        };
        line.keep(kept, kind.ages());
        Ok(answer)
    }

    fn close_year(&mut self, letter: Letter, year: u64, rows: &[Row]) -> Result<Answer, Question> {
        let line = self.lines.get_mut(&letter);
        let line = line.ok_or(Question::LineDeclared)?;
        require(line.takes_year(year), Question::YearInTurn)?;
        let ages = letter.kind().ages();
        require(
            line.keeps_patterns_for(year, &rows[..ages]),
            Question::PatternKept,
        )?;
        let factors = line.published_factors(year, ages);
        let year_end = year_end(rows, &factors, line.opening());
        line.last_closing = Some(Closing {
            year,
            amount: year_end.closing,
        });
        line.totals.add(&year_end);
        Ok(Answer::Tax {
            letter,
            year,
            year_end,
        })
    }

    fn sum(&self, letter: Letter) -> Result<Answer, Question> {
        let line = self.lines.get(&letter);
        let totals = line.ok_or(Question::LineDeclared)?.totals;
        Ok(Answer::Sum { letter, totals })
    }
}

fn require(yes: bool, question: Question) -> Result<(), Question> {
    if yes {
        Ok(())
    } else {
        Err(question)
    }
}

/// "published factors of ages 1 to 10 (1 and 2), published composite"
fn factors_answer(letter: Letter, year: u64, factors: &Factors) -> Answer {
    let ages = 1..=letter.kind().ages();
    Answer::Factors {
        letter,
        year,
        published_factors: ages.map(|age| published(factors.kept(age))).collect(),
        published_composite: published(factors.composite()),
    }
}
