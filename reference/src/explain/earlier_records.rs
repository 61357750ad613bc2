//! What the lines before a record gave and what was refused in them.

use std::collections::BTreeMap;

use super::record_names::WORDS;
use crate::kinds::Letter;
use crate::question::Question;
use crate::register::Month;

/// What a record is about. It is read loosely, so that a record which is
/// refused for its form has one too: small letters, quotes, blanks or commas
/// for tabs, and bytes that are not printable do not hide it.
#[derive(Clone, Copy, Debug, PartialEq, Eq, PartialOrd, Ord)]
pub struct Subject {
    pub word: &'static str,
    pub letter: Option<Letter>,
    pub year: Option<u64>,
    /// The month of a MIDT, January as 1.
    pub month: Option<u64>,
}

/// The first fields of a record stand in so many bytes.
const FIRST_BYTES: usize = 100;

impl Subject {
    pub fn of_line(letter: Letter) -> Subject {
        Subject::new("LINE", Some(letter), None)
    }

    pub fn of_rate(year: u64) -> Subject {
        Subject::new("RATE", None, Some(year))
    }

    pub fn of_pattern(letter: Letter, year: u64) -> Subject {
        Subject::new("PATT", Some(letter), Some(year))
    }

    pub fn of_year(letter: Letter, year: u64) -> Subject {
        Subject::new("YEAR", Some(letter), Some(year))
    }

    pub fn of_month(month: Month) -> Subject {
        Subject::of_register(Some(month.year), Some(month.number))
    }

    fn of_register(year: Option<u64>, month: Option<u64>) -> Subject {
        let subject = Subject::new("MIDT", None, year);
        Subject { month, ..subject }
    }

    fn new(word: &'static str, letter: Option<Letter>, year: Option<u64>) -> Subject {
        Subject {
            word,
            letter,
            year,
            month: None,
        }
    }

    /// Nothing if no word can be made out.
    pub fn read(line: &[u8]) -> Option<Subject> {
        let start = &line[..line.len().min(FIRST_BYTES)];
        let words = loose_words(start);
        let first = words.first()?;
        let word = WORDS.into_iter().find(|word| word == first)?;
        let letter = || {
            words
                .get(1)
                .and_then(|word| Letter::covered(word.as_bytes()))
        };
        let number = |place: usize| words.get(place).and_then(|word| word.parse().ok());
        Some(match word {
            "LINE" | "SUM" => Subject::new(word, letter(), None),
            "RATE" => Subject::new(word, None, number(1)),
            "MIDT" => Subject::of_register(number(1), number(2)),
            _ => Subject::new(word, letter(), number(2)),
        })
    }

    /// "PATT J 2015", "MIDT 1982 1"
    pub fn described(&self) -> String {
        let letter = self.letter.map(|letter| letter.character().to_string());
        let [year, month] = [self.year, self.month].map(|number| number.map(|n| n.to_string()));
        let word = Some(self.word.to_string());
        let parts: Vec<String> = [word, letter, year, month].into_iter().flatten().collect();
        parts.join(" ")
    }
}

fn loose_words(bytes: &[u8]) -> Vec<String> {
    let is_kept = |byte: &&u8| (b' '..=b'~').contains(*byte) || **byte == b'\t';
    let kept = bytes
        .iter()
        .filter(is_kept)
        .filter(|byte| !b"\"'".contains(byte));
    let text: String = kept
        .map(|byte| char::from(byte.to_ascii_uppercase()))
        .collect();
    let words = text
        .split(['\t', ' ', ',', ';'])
        .filter(|word| !word.is_empty());
    words.map(str::to_string).collect()
}

/// A record that was refused: the number of its line, and the question.
#[derive(Clone, Copy)]
pub struct RefusedBefore {
    pub line_number: usize,
    pub question: Question,
}

/// The lines in which each subject was accepted, and first refused.
#[derive(Default)]
pub struct EarlierRecords {
    accepted: BTreeMap<Subject, usize>,
    refused: BTreeMap<Subject, RefusedBefore>,
}

impl EarlierRecords {
    pub fn accept(&mut self, line_number: usize, subject: Subject) {
        self.accepted.insert(subject, line_number);
    }

    pub fn refuse(&mut self, line_number: usize, subject: Subject, question: Question) {
        let refused = RefusedBefore {
            line_number,
            question,
        };
        self.refused.entry(subject).or_insert(refused);
    }

    /// The number of the line in which it was accepted.
    pub fn accepted(&self, subject: Subject) -> Option<usize> {
        self.accepted.get(&subject).copied()
    }

    /// " (line 4)", or nothing if it was not accepted.
    pub fn line_of(&self, subject: Subject) -> String {
        let line = self.accepted(subject);
        line.map_or_else(String::new, |number| format!(" (line {number})"))
    }

    /// That it was refused before, if it was.
    pub fn refusal_of(&self, subject: Subject) -> Option<String> {
        let refused = self.refused.get(&subject)?;
        Some(format!(
            "{} was refused in line {}, with NO {}: mend that first",
            subject.described(),
            refused.line_number,
            refused.question.number()
        ))
    }
}
