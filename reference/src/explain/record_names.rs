//! The fields of each record: the place, the name and the kind of each number.

use crate::kinds::{Letter, NumberKind};
use crate::rate::MONTHS;
use crate::record::{line_numbers, monthly_rate_numbers, pattern_numbers};
use crate::record::{rate_numbers, year_numbers};

/// The words that a record begins with.
pub const WORDS: [&str; 6] = ["LINE", "RATE", "PATT", "YEAR", "SUM", "MIDT"];

/// A field that holds a number. Places are counted from 1.
pub struct NumberField {
    pub place: usize,
    pub name: String,
    pub kind: NumberKind,
}

impl NumberField {
    /// "field 4 (column D), paid of age 1"
    pub fn described(&self) -> String {
        let column = column_letters(self.place);
        format!("field {} (column {column}), {}", self.place, self.name)
    }
}

/// The numbers of a record that begins with these fields, in their order. They
/// are the last fields of every record, and of a RATE those of the long one.
pub fn number_fields(word: &[u8], second_field: &[u8]) -> Vec<NumberField> {
    match (word, Letter::covered(second_field)) {
        (b"LINE", _) => from_place(3, vec!["opening".to_string()], line_numbers()),
        (b"RATE", _) => from_place(2, rate_names(), rate_numbers()),
        (b"MIDT", _) => from_place(2, monthly_rate_names(), monthly_rate_numbers()),
        (b"PATT", Some(letter)) => from_place(3, pattern_names(letter), pattern_numbers(letter)),
        (b"YEAR", Some(letter)) => from_place(3, year_names(letter), year_numbers(letter)),
        _ => Vec::new(),
    }
}

/// How many fields such a record has. A SUM has no numbers: its letter is last.
pub fn count_of_fields(word: &[u8], second_field: &[u8]) -> usize {
    let numbers = number_fields(word, second_field);
    numbers.last().map_or(2, |last| last.place)
}

fn from_place(first: usize, names: Vec<String>, kinds: Vec<NumberKind>) -> Vec<NumberField> {
    let numbers = (first..).zip(names.into_iter().zip(kinds));
    let fields = numbers.map(|(place, (name, kind))| NumberField { place, name, kind });
    fields.collect()
}

fn rate_names() -> Vec<String> {
    let mut names = vec!["accident year".to_string()];
    names.extend((1..=MONTHS).map(|month| format!("rate of month {month}")));
    names
}

fn monthly_rate_names() -> Vec<String> {
    ["year", "month", "rate"].map(str::to_string).into()
}

fn pattern_names(letter: Letter) -> Vec<String> {
    let mut names = vec!["accident year".to_string()];
    for age in 1..=letter.kind().ages() {
        names.extend(["paid", "incurred"].map(|what| format!("{what} of age {age}")));
    }
    names
}

fn year_names(letter: Letter) -> Vec<String> {
    let mut names = vec!["year".to_string()];
    for row in row_names(letter) {
        let columns = ["paid", "unpaid", "tabular discount"];
        names.extend(columns.map(|what| format!("{what} of {row}")));
    }
    names
}

/// The rows of a YEAR: "for each age, prior row last".
fn row_names(letter: Letter) -> Vec<String> {
    let ages = 1..=letter.kind().ages();
    let mut names: Vec<String> = ages.map(|age| format!("age {age}")).collect();
    names.push("the prior row".to_string());
    names
}

/// The places of paid and incurred of an age in a PATT.
pub fn places_in_pattern(age: usize) -> String {
    place_range(2 * age + 2, "and", 2 * age + 3)
}

/// The places of an age's row in a YEAR.
pub fn places_in_year(age: usize) -> String {
    place_range(3 * age + 1, "to", 3 * age + 3)
}

/// "fields 4 and 5, columns D and E"
fn place_range(first: usize, word: &str, last: usize) -> String {
    let columns = [first, last].map(column_letters);
    format!(
        "fields {first} {word} {last}, columns {} {word} {}",
        columns[0], columns[1]
    )
}

/// The column of a field in a spreadsheet: A to Z, then AA to AZ, and so on.
fn column_letters(place: usize) -> String {
    let mut letters = String::new();
    let mut rest = place;
    while rest > 0 {
        let letter = b'A' + ((rest - 1) % 26) as u8;
        letters.insert(0, char::from(letter));
        rest = (rest - 1) / 26;
    }
    letters
}
