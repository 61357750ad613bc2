//! Where a record fails in its form: questions 1 to 4.

use super::earlier_records::Subject;
use super::line_names::kind_name;
use super::record_names::{count_of_fields, number_fields, NumberField, WORDS};
use super::refusal::{Fault, Refused};
use super::shown::{counted, quoted, thousands, WINDOWS_LINE_ENDS};
use crate::kinds::{Letter, TEN_YEAR_LETTERS, TWO_YEAR_LETTERS};
use crate::question::Question;
use crate::rate::MONTHS;
use crate::record::{LONGEST_LINE, SHORT_RATE_FIELDS};

/// The words, if the cause shows.
fn hint(shows: bool, words: impl Into<String>) -> Option<String> {
    shows.then(|| words.into())
}

/// Question 1, with the later question that has a "no" too.
pub fn line_length(refused: &Refused, later: Option<(Question, Fault)>) -> Fault {
    let line = refused.line;
    let mut places = vec![format!(
        "the line has {} bytes, and {} are allowed",
        thousands(line.len()),
        thousands(LONGEST_LINE)
    )];
    let words: usize = WORDS.iter().map(|word| times_in(line, word)).sum();
    let inner_return = line[..line.len().saturating_sub(1)].contains(&b'\r');
    let own_hints = [
        hint(words > 1, "more than one record stands in the line"),
        hint(
            inner_return,
            "carriage returns stand in it: the lines may end in these",
        ),
    ];
    let mut hints: Vec<String> = own_hints.into_iter().flatten().collect();
    if let Some((question, fault)) = later {
        places.extend(first_place(question, &fault));
        hints.extend(fault.hints);
    }
    Fault { places, hints }
}

/// The first place where a later question has a "no", and how many more there
/// are.
fn first_place(question: Question, fault: &Fault) -> Option<String> {
    let number = question.number();
    let first = fault.places.first()?;
    let place = format!("question {number} would refuse it too: {first}");
    Some(match fault.places.len() - 1 {
        0 => place,
        more => format!("{place}; and {}", counted(more, "more place")),
    })
}

/// How often a word stands in a line.
fn times_in(line: &[u8], word: &str) -> usize {
    let parts = line.windows(word.len());
    parts.filter(|part| *part == word.as_bytes()).count()
}

/// Where a word first stands in a field.
fn place_in(field: &[u8], word: &str) -> Option<usize> {
    let mut parts = field.windows(word.len());
    parts.position(|part| part == word.as_bytes())
}

/// How many fields at the end are empty, or hold a carriage return alone.
fn empty_at_end(fields: &[&[u8]]) -> usize {
    let is_empty = |field: &&&[u8]| matches!(**field, b"" | b"\r");
    fields.iter().rev().take_while(is_empty).count()
}

/// Question 2.
pub fn first_word(refused: &Refused) -> Fault {
    let place = format!("the first field is {}", quoted(refused.word()));
    let mut hints = hints_of_encoding(refused.line);
    match Subject::read(refused.line) {
        Some(subject) => hints.extend(hints_of_word(refused.word(), subject.word)),
        None if hints.is_empty() => hints.extend(hints_of_other_line(refused.line)),
        None => {}
    }
    Fault::at(place, hints)
}

fn hints_of_encoding(line: &[u8]) -> Vec<String> {
    let wide_mark = line.starts_with(b"\xff\xfe") || line.starts_with(b"\xfe\xff");
    let wide = wide_mark || line.contains(&0);
    let hints = [
        hint(wide, "the file is saved as UTF-16: save it as UTF-8"),
        hint(
            line.starts_with(b"\xef\xbb\xbf"),
            "a byte order mark stands before it: save as UTF-8 without one",
        ),
    ];
    hints.into_iter().flatten().collect()
}

/// The word can be made out in the first field, or in what stands before a
/// separator that is no tab.
fn hints_of_word(field: &[u8], word: &str) -> Vec<String> {
    let at = place_in(field, word);
    let place = at.or_else(|| place_in(&field.to_ascii_uppercase(), word));
    let before = &field[..place.unwrap_or(0)];
    let after = &field[place.map_or(0, |place| place + word.len())..];
    let rest = after.trim_ascii();
    let parted_by = |byte: u8| place.is_some() && after.starts_with(&[byte]) && !rest.is_empty();
    let hints = [
        hint(
            at.is_none() && place.is_some(),
            format!("small letters: write {word}"),
        ),
        hint(
            field.contains(&b'"'),
            "quotes: write the fields without them",
        ),
        hint(before.contains(&b' '), "a blank stands before the word"),
        hint(
            place.is_some() && !after.is_empty() && rest.is_empty(),
            format!("{} stands after the word", quoted(after)),
        ),
        hint(parted_by(b' '), "blanks stand where tabs part the fields"),
        hint(parted_by(b','), "commas stand where tabs part the fields"),
        hint(
            parted_by(b';'),
            "semicolons stand where tabs part the fields",
        ),
    ];
    hints.into_iter().flatten().collect()
}

/// No word can be made out.
fn hints_of_other_line(line: &[u8]) -> Vec<String> {
    let is_answer = |word: &&str| line.starts_with(word.as_bytes());
    let answer = ["FACT\t", "TAX\t", "NO\t", "DONE\t"].iter().any(is_answer);
    let words = match line {
        b"" => "the line is empty: delete it",
        b"\r" => "an empty line of a file with Windows line ends: delete it",
        _ if line.trim_ascii().is_empty() => "the line is blank: delete it",
        _ if answer => "it is an answer of the book and no record",
        _ => "a header row, a note or a word that the book does not know",
    };
    vec![words.to_string()]
}

/// Question 3.
pub fn covered_letter(refused: &Refused) -> Fault {
    let Some(field) = refused.fields.get(1) else {
        return Fault::at("there is no second field".to_string(), Vec::new());
    };
    let place = format!("the second field is {}", quoted(field));
    let cleaned: Vec<u8> = field
        .iter()
        .filter(|byte| byte.is_ascii_alphanumeric())
        .map(u8::to_ascii_uppercase)
        .collect();
    let covered = Letter::covered(&cleaned).map(Letter::character);
    let capital = |letter: char| format!("write the capital letter alone: {letter}");
    let number = !field.is_empty() && field.iter().all(u8::is_ascii_digit);
    let is_sum = refused.word() == b"SUM";
    let ends_in_return = refused.fields.len() == 2 && field.ends_with(b"\r");
    let hints = [
        hint(field.is_empty(), "the field is empty"),
        hint(ends_in_return, WINDOWS_LINE_ENDS),
        covered.filter(|_| !ends_in_return).map(capital),
        hint(
            number && !is_sum,
            "a number: the letter stands before the year",
        ),
        hint(number && is_sum, "a number: a SUM has the letter of a line"),
        hint(covered.is_none(), covered_letters()),
    ];
    Fault::at(place, hints.into_iter().flatten().collect())
}

fn covered_letters() -> String {
    let letters = |bytes: &[u8]| {
        let letters = bytes.iter().map(|byte| char::from(*byte).to_string());
        letters.collect::<Vec<_>>().join(" ")
    };
    format!(
        "covered are {} and {}",
        letters(TEN_YEAR_LETTERS),
        letters(TWO_YEAR_LETTERS)
    )
}

/// Question 4.
pub fn field_count(refused: &Refused) -> Fault {
    let found = refused.fields.len();
    let numbers = number_fields(refused.word(), refused.second_field());
    let expected = expected_count(refused);
    let or_two = if refused.word() == b"RATE" {
        ", or 2 with its year alone"
    } else {
        ""
    };
    let place = format!(
        "there {} {}, and {} has {}{or_two}",
        if found == 1 { "is" } else { "are" },
        counted(found, "field"),
        record_name(refused),
        count_of_fields(refused.word(), refused.second_field())
    );
    let is_too_short = |number: &&NumberField| number.place > found && found < expected;
    let mut missing = numbers.iter().filter(is_too_short);
    let ends = |first: &NumberField| format!("{place}: it ends before {}", first.described());
    let place = missing.next().map_or(place.clone(), ends);
    Fault::at(place, hints_of_count(refused, expected))
}

/// How many fields the record was to have: a RATE whose third field and all
/// after it are empty is a short one.
fn expected_count(refused: &Refused) -> usize {
    let filled = refused.fields.len() - empty_at_end(&refused.fields);
    if refused.word() == b"RATE" && filled == SHORT_RATE_FIELDS {
        return SHORT_RATE_FIELDS;
    }
    count_of_fields(refused.word(), refused.second_field())
}

/// "a PATT of a two-year line", "a RATE"
fn record_name(refused: &Refused) -> String {
    let word = String::from_utf8_lossy(refused.word());
    match Letter::covered(refused.second_field()) {
        Some(letter) if word == "PATT" || word == "YEAR" => {
            format!("a {word} of a {} line", kind_name(letter.kind()))
        }
        _ => format!("a {word}"),
    }
}

fn hints_of_count(refused: &Refused, expected: usize) -> Vec<String> {
    let fields = &refused.fields;
    let too_many = fields.len() > expected;
    let at_end = empty_at_end(fields);
    let inner = &fields[..fields.len() - at_end];
    let in_the_middle = inner.iter().filter(|field| field.is_empty()).count();
    let blank = fields
        .iter()
        .any(|field| field.trim_ascii().contains(&b' '));
    let hints = [
        hint(
            too_many && at_end == 1,
            "the last field is empty: a tab stands at the end of the line",
        ),
        hint(
            too_many && at_end > 1,
            format!(
                "the last {} fields are empty: tabs or empty columns at the end",
                thousands(at_end)
            ),
        ),
        hint(
            too_many && in_the_middle > 0,
            format!("{} before the last", counted(in_the_middle, "empty field")),
        ),
        hint(
            is_count_of_other_kind(refused),
            "it is the count of the other kind of line",
        ),
        hint(blank, "blanks stand in a field: a tab parts two fields"),
        hint_of_sum(refused),
        hint_of_rate(refused),
        hint_of_month(refused),
    ];
    hints.into_iter().flatten().collect()
}

/// The fields that hold digits alone, up to the first that does not.
fn numbers_at_start<'a>(fields: &[&'a [u8]]) -> Vec<&'a [u8]> {
    let is_number = |field: &&&[u8]| !field.is_empty() && field.iter().all(u8::is_ascii_digit);
    fields.iter().take_while(is_number).copied().collect()
}

/// A RATE with too few or too many rates, or one that looks like a MIDT.
fn hint_of_rate(refused: &Refused) -> Option<String> {
    let (b"RATE", [_, _, rates @ ..]) = (refused.word(), &refused.fields[..]) else {
        return None;
    };
    let count = rates.len() - empty_at_end(rates);
    match (count, numbers_at_start(rates).len()) {
        (0 | MONTHS, _) => None,
        (2, 2) if rates[0].len() < 3 => {
            Some("a year, a month and one rate: a MIDT has these".to_string())
        }
        _ if count + 12 > MONTHS => Some(format!(
            "{} where a RATE has sixty, or none",
            counted(count, "rate")
        )),
        _ => Some("a RATE has sixty rates, or none: then those of the register count".to_string()),
    }
}

/// A MIDT that looks like a RATE, or has more months than one.
fn hint_of_month(refused: &Refused) -> Option<String> {
    let (b"MIDT", fields) = (refused.word(), &refused.fields[..]) else {
        return None;
    };
    match fields.len() - empty_at_end(fields) {
        2 => Some("a year alone: a RATE has this, and a MIDT a month and its rate too".to_string()),
        3 => Some("a MIDT has a year, a month and one rate".to_string()),
        0..=4 => None,
        _ => Some("a MIDT has the rate of one month: give a MIDT for each".to_string()),
    }
}

/// What stands after the letter of a SUM.
fn hint_of_sum(refused: &Refused) -> Option<String> {
    let (b"SUM", [_, _, after @ ..]) = (refused.word(), &refused.fields[..]) else {
        return None;
    };
    let is_number = |field: &&[u8]| !field.is_empty() && field.iter().all(u8::is_ascii_digit);
    let words = match after {
        [_, _, _] => "it is an answer of the book and no record",
        [year] if is_number(year) => "a SUM has no year: it is of all closed years of the line",
        _ => return None,
    };
    Some(words.to_string())
}

/// Has the same word so many fields with the letter of another kind of line?
fn is_count_of_other_kind(refused: &Refused) -> bool {
    let letters = Letter::all().into_iter().map(Letter::character);
    let mut counts = letters.map(|letter| count_of_fields(refused.word(), &[letter as u8]));
    counts.any(|count| count == refused.fields.len())
}
