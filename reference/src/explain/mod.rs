//! What each answer of a run means, told to a person.
//!
//! The records go through the book one by one, and each gets its part of the
//! `report`: `accepted` says what an answer means, with the sheets of a PATT, a
//! YEAR, a SUM and a MIDT (`pattern_sheet`, `year_sheet`, `totals_sheet`,
//! `register_sheet`); `refusal` says which question was answered no and where,
//! with a file for each group of them. `earlier_records` knows the lines before.
//! `text` and `page` write the report.
//!
//! A new record is explained in `accepted` and named in `record_names`; a new
//! question is put in words in `refusal`.

mod accepted;
mod earlier_records;
mod exact_decimals;
mod line_names;
mod months;
pub mod page;
mod pattern_sheet;
pub mod plot;
mod record_names;
mod refusal;
mod refused_figures;
mod refused_form;
mod refused_months;
mod refused_numbers;
mod refused_turn;
mod register_sheet;
pub mod report;
mod shown;
pub mod text;
mod totals_sheet;
mod year_sheet;

use accepted::Accepted;
use earlier_records::{EarlierRecords, Subject};
use refusal::Refused;
use report::{labelled, paragraph, Block, Heading, Report};
use shown::{counted, escaped_within, shown_record};

use crate::answer::{done, Answer};
use crate::book::Book;
use crate::record::read;
use crate::run::records;

const NOTICE: &str = "An explanation, not proved: what counts are the answers of the proved \
    book (crates/book/out/book).";

const READING: &str = "Money is in whole thousands of dollars. A factor is what 1 of unpaid \
    losses is worth at the year end. Lines are counted from 1 in the file of records, and a \
    record's fields are shown with | for the tab.";

/// The explanation of a run of the book over an input of that name.
pub fn explain(name: &str, input: &[u8]) -> Report {
    let mut explanation = Explanation::default();
    explanation.blocks.push(paragraph(READING));
    for (line_number, line) in (1..).zip(records(input)) {
        explanation.add(line_number, line);
    }
    explanation.end();
    let (name, _) = escaped_within(name.as_bytes(), LONGEST_NAME);
    Report {
        notice: NOTICE.to_string(),
        title: format!("The records of {name}, explained"),
        blocks: explanation.blocks,
    }
}

/// A name is shown in so many characters at most.
const LONGEST_NAME: usize = 60;

#[derive(Default)]
struct Explanation {
    book: Book,
    earlier: EarlierRecords,
    refused: Vec<(usize, String)>,
    blocks: Vec<Block>,
}

impl Explanation {
    /// A refused record leaves the book as it was but for the count, so the
    /// book after a record shows what it met.
    fn add(&mut self, line_number: usize, line: &[u8]) {
        let answer = self.book.answer(line);
        let subject = Subject::read(line);
        self.head(line_number, line, subject, &answer);
        let (book, earlier) = (&self.book, &self.earlier);
        let blocks = match (&answer, read(line)) {
            (Answer::No(question), _) => {
                refusal::blocks(*question, &Refused::new(line, book, earlier))
            }
            (answer, Ok(request)) => {
                let accepted = Accepted {
                    answer,
                    book,
                    earlier,
                };
                accepted.blocks(&request)
            }
            _ => Vec::new(),
        };
        self.blocks.extend(blocks);
        self.remember(line_number, subject, &answer);
    }

    /// The heading, the record and its answer.
    fn head(&mut self, number: usize, line: &[u8], subject: Option<Subject>, answer: &Answer) {
        let (is_refused, outcome) = match answer {
            Answer::No(question) => (true, format!("refused (NO {})", question.number())),
            _ => (false, "accepted".to_string()),
        };
        let said = match subject {
            Some(subject) => format!("{}, {outcome}", subject.described()),
            None => outcome,
        };
        self.blocks.push(Block::Heading(Heading {
            line_number: Some(number),
            is_refused,
            text: format!("Line {number}: {said}"),
        }));
        if is_refused {
            self.refused.push((number, said));
        }
        self.blocks.push(labelled("record", shown_record(line)));
        let answer = with_blanks(&answer.bytes());
        self.blocks.push(labelled("answer", answer));
    }

    fn remember(&mut self, number: usize, subject: Option<Subject>, answer: &Answer) {
        match (subject, answer) {
            (Some(subject), Answer::No(question)) => {
                self.earlier.refuse(number, subject, *question);
            }
            (Some(subject), _) => self.earlier.accept(number, subject),
            (None, _) => {}
        }
    }

    fn end(&mut self) {
        let Book {
            accepted, refused, ..
        } = self.book;
        self.blocks.push(Block::Heading(Heading {
            line_number: None,
            is_refused: false,
            text: "The end".to_string(),
        }));
        let answer = with_blanks(&done(accepted, refused));
        self.blocks.push(labelled("answer", answer));
        let [accepted, refused] =
            [accepted, refused].map(|count| counted(count as usize, "record"));
        self.blocks.push(paragraph(format!(
            "Accepted: {accepted}. Refused: {refused}. An output of the book without this last \
             line was cut short."
        )));
        if self.refused.is_empty() {
            return;
        }
        self.blocks.push(paragraph(
            "One early NO brings others, so mend the first of these in the records, run again, and \
             look at the next:",
        ));
        self.blocks
            .push(Block::Records(std::mem::take(&mut self.refused)));
    }
}

/// An answer without its byte 10 and with blanks for tabs.
fn with_blanks(answer: &[u8]) -> String {
    String::from_utf8_lossy(answer)
        .trim_end()
        .replace('\t', " ")
}
