//! Where a record's numbers fail: questions 5 and 6.

use super::record_names::{number_fields, NumberField};
use super::refusal::{Fault, Refused};
use super::shown::{quoted, thousands, WINDOWS_LINE_ENDS};
use crate::kinds::NumberKind;
use crate::record::{value, well_written};

/// A number, and the field that holds it.
type Number<'a> = (NumberField, &'a [u8]);

fn numbers_of<'a>(refused: &Refused<'a>) -> Vec<Number<'a>> {
    let numbers = number_fields(refused.word(), refused.second_field());
    let with_field = |number: NumberField| {
        let field = *refused.fields.get(number.place - 1)?;
        Some((number, field))
    };
    numbers.into_iter().filter_map(with_field).collect()
}

/// Question 5.
pub fn badly_written(refused: &Refused) -> Fault {
    let numbers = numbers_of(refused).into_iter();
    let wrong: Vec<Number> = numbers
        .filter(|(number, field)| !well_written(field, number.kind))
        .collect();
    let place = |(number, field): &Number| {
        let faults = faults(field, number.kind).join(", ");
        format!("{}: {}: {faults}", number.described(), quoted(field))
    };
    let windows = wrong.iter().any(|(_, field)| field.ends_with(b"\r"));
    let point = wrong.iter().find(|(_, field)| field.contains(&b'.'));
    let month = wrong.iter().any(is_month_in_letters);
    let hints = [
        windows.then_some(WINDOWS_LINE_ENDS),
        point.and_then(|(number, _)| hint_of_point(number.kind)),
        month.then_some(MONTHS_ARE),
    ];
    Fault {
        places: wrong.iter().map(place).collect(),
        hints: hints.into_iter().flatten().map(str::to_string).collect(),
    }
}

/// In what a number without a point is given.
fn hint_of_point(kind: NumberKind) -> Option<&'static str> {
    match kind {
        NumberKind::Year | NumberKind::RegisterYear | NumberKind::Month => None,
        NumberKind::Rate => Some(RATES_ARE_IN),
        NumberKind::Opening | NumberKind::Amount | NumberKind::PaidInYear => {
            Some("money is in whole thousands of dollars")
        }
    }
}

const RATES_ARE_IN: &str = "rates are in hundredths of a percent: 148 is 1.48 percent";

const MONTHS_ARE: &str = "a month is its number, 1 for January to 12 for December";

fn is_month_in_letters((number, field): &Number) -> bool {
    number.kind == NumberKind::Month && field.iter().any(u8::is_ascii_alphabetic)
}

/// Bytes that people write in numbers.
const USUAL_BYTES: [(u8, &str); 11] = [
    (b'\r', "a carriage return"),
    (b',', "a comma"),
    (b'.', "a point"),
    (b'$', "a dollar sign"),
    (b'%', "a percent sign"),
    (b'"', "quotes"),
    (b'\'', "an apostrophe"),
    (b' ', "a blank"),
    (b'+', "a plus sign"),
    (b'(', "brackets"),
    (b'=', "a formula"),
];

/// What is wrong with a number that is not well written, at least one thing.
fn faults(field: &[u8], kind: NumberKind) -> Vec<String> {
    if field.is_empty() {
        return vec!["the field is empty".to_string()];
    }
    let usual = USUAL_BYTES.iter().filter(|(byte, _)| field.contains(byte));
    let mut faults: Vec<String> = usual.map(|(_, words)| words.to_string()).collect();
    let digits = field.strip_prefix(b"-").unwrap_or(field);
    if digits.len() < field.len() {
        faults.extend(fault_of_minus(digits, kind).map(str::to_string));
    }
    if digits.len() > 1 && digits.starts_with(b"0") && digits[1].is_ascii_digit() {
        faults.push("a leading zero".to_string());
    }
    if faults.is_empty() {
        faults.extend(first_other_byte(digits));
    }
    faults
}

/// What is wrong with the minus sign before these digits.
fn fault_of_minus(digits: &[u8], kind: NumberKind) -> Option<&'static str> {
    if kind != NumberKind::PaidInYear {
        return Some("a minus sign, which only a paid in YEAR may have");
    }
    match digits {
        b"" => Some("a minus sign alone"),
        b"0" => Some("a minus sign before 0"),
        _ => None,
    }
}

fn first_other_byte(field: &[u8]) -> Option<String> {
    let other = field.iter().find(|byte| !byte.is_ascii_digit())?;
    Some(format!("{} is no digit", quoted(&[*other])))
}

/// Question 6.
pub fn past_limits(refused: &Refused) -> Fault {
    let numbers = numbers_of(refused).into_iter();
    let wrong: Vec<Number> = numbers
        .filter(|(number, field)| well_written(field, number.kind) && is_past(field, number.kind))
        .collect();
    let place = |(number, field): &Number| {
        let [lowest, highest] = limits(number.kind);
        let given = shown_number(field, number.kind);
        format!(
            "{}: {given}, and {lowest} to {highest} is allowed",
            number.described()
        )
    };
    let mut hints: Vec<String> = Vec::new();
    for (number, field) in &wrong {
        let hint = hint_of_limit(value(field), number.kind).to_string();
        if !hint.is_empty() && !hints.contains(&hint) {
            hints.push(hint);
        }
    }
    let places = wrong.iter().map(place).collect();
    Fault { places, hints }
}

fn is_past(field: &[u8], kind: NumberKind) -> bool {
    !(kind.lowest()..=kind.highest()).contains(&value(field))
}

/// Years are written without separators.
fn limits(kind: NumberKind) -> [String; 2] {
    let limits = [kind.lowest(), kind.highest()];
    match kind {
        _ if is_year(kind) => limits.map(|limit| limit.to_string()),
        _ => limits.map(thousands),
    }
}

fn is_year(kind: NumberKind) -> bool {
    matches!(kind, NumberKind::Year | NumberKind::RegisterYear)
}

/// A number with separators; one of very many digits is shortened.
fn shown_number(field: &[u8], kind: NumberKind) -> String {
    if is_year(kind) || field.len() > 30 {
        return quoted(field);
    }
    thousands(value(field))
}

/// A year and its month in one number, such as 198203.
const YEAR_AND_MONTH: std::ops::RangeInclusive<i128> = 198_001..=209_912;

/// Is it large enough for a year?
fn is_past_years(number: i128) -> bool {
    number >= NumberKind::RegisterYear.lowest()
}

fn hint_of_limit(number: i128, kind: NumberKind) -> &'static str {
    match kind {
        _ if is_year(kind) && number < 100 => "a year is written with four digits",
        NumberKind::RegisterYear if (YEAR_AND_MONTH).contains(&number) => {
            "the year and its month are two fields"
        }
        NumberKind::Year | NumberKind::RegisterYear => "",
        NumberKind::Month if is_past_years(number) => "the year stands before the month",
        NumberKind::Month => MONTHS_ARE,
        NumberKind::Rate => RATES_ARE_IN,
        NumberKind::Opening | NumberKind::Amount | NumberKind::PaidInYear => {
            "money is in thousands of dollars: perhaps these are dollars"
        }
    }
}
