//! The answers and their bytes.

use crate::kinds::Letter;
use crate::question::Question;
use crate::register::Month;
use crate::reserve::YearEnd;
use crate::totals::Totals;

/// The answer to one record.
#[derive(Clone, Debug, PartialEq, Eq)]
pub enum Answer {
    /// "LINE: letter, opening."
    Line { letter: Letter, opening: u64 },
    /// "RATE: year, the accident year's rate."
    Rate { year: u64, rate: u64 },
    /// "MIDT prints its own fields back."
    MonthlyRate { month: Month, rate: u64 },
    /// "A PATT prints FACT: letter, year, published factors of ages 1 to 10 (1
    /// and 2), published composite."
    Factors {
        letter: Letter,
        year: u64,
        published_factors: Vec<u64>,
        published_composite: u64,
    },
    /// "TAX: letter, year, paid, opening, closing, loss."
    Tax {
        letter: Letter,
        year: u64,
        year_end: YearEnd,
    },
    /// "A record SUM with a letter prints SUM, the letter, the count of closed
    /// years, all paid, and all tax-basis losses."
    Sum { letter: Letter, totals: Totals },
    /// "NO: the refusal's number."
    No(Question),
}

impl Answer {
    /// The answer's line, byte 10 included.
    pub fn bytes(&self) -> Vec<u8> {
        output_line(&self.fields())
    }

    fn fields(&self) -> Vec<String> {
        match self {
            Answer::Line { letter, opening } => texts(&[&"LINE", &letter.character(), opening]),
            Answer::Rate { year, rate } => texts(&[&"RATE", year, rate]),
            Answer::MonthlyRate { month, rate } => {
                texts(&[&"MIDT", &month.year, &month.number, rate])
            }
            Answer::Factors {
                letter,
                year,
                published_factors,
                published_composite,
            } => {
                let mut fields = texts(&[&"FACT", &letter.character(), year]);
                fields.extend(published_factors.iter().map(u64::to_string));
                fields.push(published_composite.to_string());
                fields
            }
            Answer::Tax {
                letter,
                year,
                year_end,
            } => tax_fields(*letter, *year, year_end),
            Answer::Sum { letter, totals } => texts(&[
                &"SUM",
                &letter.character(),
                &totals.closed_years,
                &totals.paid,
                &totals.losses,
            ]),
            Answer::No(question) => texts(&[&"NO", &question.number()]),
        }
    }
}

fn tax_fields(letter: Letter, year: u64, year_end: &YearEnd) -> Vec<String> {
    texts(&[
        &"TAX",
        &letter.character(),
        &year,
        &year_end.paid,
        &year_end.opening,
        &year_end.closing,
        &year_end.loss,
    ])
}

/// "DONE closes every run: accepted, refused."
pub fn done(accepted: u64, refused: u64) -> Vec<u8> {
    output_line(&texts(&[&"DONE", &accepted, &refused]))
}

fn texts(values: &[&dyn ToString]) -> Vec<String> {
    values.iter().map(|value| value.to_string()).collect()
}

/// Fields parted by one tab, and byte 10.
fn output_line(fields: &[String]) -> Vec<u8> {
    let mut line = fields.join("\t").into_bytes();
    line.push(b'\n');
    line
}
