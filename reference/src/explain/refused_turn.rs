//! Where a record fails in its turn: questions 7 to 10.

use super::earlier_records::Subject;
use super::line_names::described;
use super::refusal::{Fault, Refused};
use super::shown::percent;
use crate::book::DeclaredLine;
use crate::kinds::{Letter, LAST_YEAR};
use crate::record::{read, Request};

/// The refusals before of what has to come first.
fn refusals(refused: &Refused, needed: &[Subject]) -> Vec<String> {
    let found = needed
        .iter()
        .filter_map(|subject| refused.earlier.refusal_of(*subject));
    found.collect()
}

/// Question 7.
pub fn given_before(refused: &Refused) -> Fault {
    let subject = Subject::read(refused.line);
    let given = subject.and_then(|subject| Some((subject, refused.earlier.accepted(subject)?)));
    let Some((subject, line_number)) = given else {
        return Fault::default();
    };
    if let Ok(Request::MonthlyRate { month, rate }) = read(refused.line) {
        let given = refused.book.register.rate(month).unwrap_or_default();
        return month_given_before(subject, line_number, [given, rate]);
    }
    let name = subject.described();
    let place = format!("{name} was given in line {line_number} and stays as it is there");
    Fault::at(place, Vec::new())
}

/// A month is given "once": the rate that was given and the one of this line.
fn month_given_before(subject: Subject, line_number: usize, rates: [u64; 2]) -> Fault {
    let [given, rate] = rates.map(percent);
    let place = format!(
        "{} was given in line {line_number}, at {given}, and stays as it is there",
        subject.described()
    );
    let hint = if given == rate {
        "this line gives the same rate: delete it".to_string()
    } else {
        format!("this line gives {rate}: if that is right, mend line {line_number}")
    };
    Fault::at(place, vec![hint])
}

/// Question 8.
pub fn not_declared(refused: &Refused) -> Fault {
    let Some(letter) = Subject::read(refused.line).and_then(|subject| subject.letter) else {
        return Fault::default();
    };
    let place = format!("no LINE has declared {}", described(letter));
    Fault::at(place, refusals(refused, &[Subject::of_line(letter)]))
}

/// Question 9.
pub fn without_rate(refused: &Refused) -> Fault {
    let Some(year) = Subject::read(refused.line).and_then(|subject| subject.year) else {
        return Fault::default();
    };
    let place = format!("no RATE of accident year {year} was accepted before this line");
    Fault::at(place, refusals(refused, &[Subject::of_rate(year)]))
}

/// Question 10.
pub fn not_in_turn(refused: &Refused) -> Fault {
    match read(refused.line) {
        Ok(Request::Pattern { letter, year, .. }) => turn(refused, letter, year, pattern_in_turn),
        Ok(Request::Year { letter, year, .. }) => turn(refused, letter, year, year_in_turn),
        _ => Fault::default(),
    }
}

/// Why a record is not in turn, and which record is.
type Turn = (String, Option<Subject>);

/// What should have come between the line's last pattern and a later year: the
/// PATT after it.
fn between(line: &DeclaredLine, letter: Letter, year: u64) -> Option<Subject> {
    let last = line.last_pattern_year().filter(|last| *last < year)?;
    pattern_after(letter, last)
}

fn turn(
    refused: &Refused,
    letter: Letter,
    year: u64,
    in_turn: fn(&DeclaredLine, Letter, u64) -> Turn,
) -> Fault {
    let Some(line) = refused.book.lines.get(&letter) else {
        return Fault::default();
    };
    let (why, next) = in_turn(line, letter, year);
    let next_words = next.map_or_else(String::new, |next| {
        format!(": in turn is {}", next.described())
    });
    let between = between(line, letter, year).filter(|between| next != Some(*between));
    let needed: Vec<Subject> = next.into_iter().chain(between).collect();
    let hints = refusals(refused, &needed);
    Fault::at(format!("{why}{next_words}"), hints)
}

fn pattern_in_turn(line: &DeclaredLine, letter: Letter, year: u64) -> Turn {
    let Some(last) = line.last_pattern_year() else {
        return (String::new(), None);
    };
    let next = pattern_after(letter, last);
    let name = letter.character();
    match line.last_closed_year() {
        Some(closed) if closed != last => (
            format!("line {name} has closed {closed}, and {last}, its last pattern, is not closed"),
            Some(Subject::of_year(letter, last)),
        ),
        _ if year == last => (format!("line {name} has the pattern of {year}"), next),
        _ => (
            format!("the last pattern of line {name} is of {last}"),
            next,
        ),
    }
}

/// The PATT after that of a year, if there is one.
fn pattern_after(letter: Letter, year: u64) -> Option<Subject> {
    (year < LAST_YEAR).then(|| Subject::of_pattern(letter, year + 1))
}

fn year_in_turn(line: &DeclaredLine, letter: Letter, year: u64) -> Turn {
    let name = letter.character();
    let Some(last) = line.last_pattern_year() else {
        let why = format!("line {name} has no pattern yet");
        return (why, Some(Subject::of_pattern(letter, year)));
    };
    if line.last_closed_year() == Some(last) {
        let why = format!("{last}, the year of the last pattern of line {name}, is closed");
        return (why, pattern_after(letter, last));
    }
    let why = format!("the last pattern of line {name} is of {last}, which is not closed");
    (why, Some(Subject::of_year(letter, last)))
}
