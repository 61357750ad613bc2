//! A refused record: the question in words, and where exactly it fails.

use super::earlier_records::EarlierRecords;
use super::record_names::WORDS;
use super::refused_figures::{falling_ratios, paid_not_within_incurred, rows_without_pattern};
use super::refused_form::{covered_letter, field_count, first_word, line_length};
use super::refused_months::months_lacking;
use super::refused_numbers::{badly_written, past_limits};
use super::refused_turn::{given_before, not_declared, not_in_turn, without_rate};
use super::report::{paragraph, Block};
use super::shown::thousands;
use crate::book::Book;
use crate::question::Question;
use crate::record::{read_within, LONGEST_LINE, TAB};

/// At most so many places are shown.
const MOST_PLACES: usize = 10;

/// A refused record, the book that it met and the lines before it.
pub struct Refused<'a> {
    pub line: &'a [u8],
    pub fields: Vec<&'a [u8]>,
    pub book: &'a Book,
    pub earlier: &'a EarlierRecords,
}

impl<'a> Refused<'a> {
    pub fn new(line: &'a [u8], book: &'a Book, earlier: &'a EarlierRecords) -> Refused<'a> {
        Refused {
            line,
            fields: line.split(|byte| *byte == TAB).collect(),
            book,
            earlier,
        }
    }

    /// The first field, which every line has.
    pub fn word(&self) -> &'a [u8] {
        self.fields.first().copied().unwrap_or_default()
    }

    /// The second field, empty if there is none.
    pub fn second_field(&self) -> &'a [u8] {
        self.fields.get(1).copied().unwrap_or_default()
    }
}

/// Where a record fails, and what helps to find the cause.
#[derive(Default)]
pub struct Fault {
    pub places: Vec<String>,
    pub hints: Vec<String>,
}

impl Fault {
    pub fn at(place: String, hints: Vec<String>) -> Fault {
        let places = vec![place];
        Fault { places, hints }
    }
}

/// The question, as it is put to every record.
fn in_words(question: Question) -> String {
    match question {
        Question::LineLength => {
            return format!("Has the line at most {} bytes?", thousands(LONGEST_LINE))
        }
        Question::Word => return format!("Is the first field one of {}?", WORDS.join(", ")),
        Question::CoveredLetter => "Is the second field a covered letter?",
        Question::FieldCount => "Is the count of fields right?",
        Question::WellWritten => "Is every number well written?",
        Question::WithinLimits => "Is every number within its limits?",
        Question::StillToBeGiven => {
            "Is that line, that year's rate or that month's rate still to be given?"
        }
        Question::LineDeclared => "Is the line declared?",
        Question::YearHasRate => "Has the accident year a rate?",
        Question::YearInTurn => "Does the record come in turn?",
        Question::PaidWithinIncurred => {
            "Is every incurred above 0, and no paid above its incurred?"
        }
        Question::NoRatioFalls => "Does no cumulative ratio fall from one age to the next?",
        Question::PatternKept => "Has every age row with a gross above 0 a kept pattern?",
        Question::MonthsGiven => "Has the register all sixty months of this RATE?",
    }
    .to_string()
}

fn fault(question: Question, refused: &Refused) -> Fault {
    match question {
        Question::LineLength => line_length(refused, later_fault(refused)),
        Question::Word => first_word(refused),
        Question::CoveredLetter => covered_letter(refused),
        Question::FieldCount => field_count(refused),
        Question::WellWritten => badly_written(refused),
        Question::WithinLimits => past_limits(refused),
        Question::StillToBeGiven => given_before(refused),
        Question::LineDeclared => not_declared(refused),
        Question::YearHasRate => without_rate(refused),
        Question::YearInTurn => not_in_turn(refused),
        Question::PaidWithinIncurred => paid_not_within_incurred(refused),
        Question::NoRatioFalls => falling_ratios(refused),
        Question::PatternKept => rows_without_pattern(refused),
        Question::MonthsGiven => months_lacking(refused),
    }
}

/// "No accepted record can have more than 418 bytes": a longer line has a "no"
/// to a later question too, which shows what is too much.
fn later_fault(refused: &Refused) -> Option<(Question, Fault)> {
    let later = read_within(refused.line, refused.line.len()).err()?;
    Some((later, fault(later, refused)))
}

pub fn blocks(question: Question, refused: &Refused) -> Vec<Block> {
    let number = question.number();
    let Fault { mut places, hints } = fault(question, refused);
    let more = places.len().saturating_sub(MOST_PLACES);
    places.truncate(MOST_PLACES);
    if more > 0 {
        places.push(format!("and {} more", thousands(more)));
    }
    let mut blocks = vec![
        paragraph(format!("Question {number}: {} No:", in_words(question))),
        Block::List(places),
    ];
    if !hints.is_empty() {
        blocks.push(paragraph(format!("Hint: {}.", hints.join("; "))));
    }
    blocks.push(paragraph(format!(
        "How to mend it: docs/MANUAL.md, NO {number}."
    )));
    blocks
}
