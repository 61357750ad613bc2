//! Where a record's figures fail: questions 11 to 13.

use super::earlier_records::Subject;
use super::record_names::{places_in_pattern, places_in_year};
use super::refusal::{Fault, Refused};
use super::shown::{decimal, thousands};
use crate::book::DeclaredLine;
use crate::pattern::{cumulative_ratio, CumulativeRow};
use crate::record::{read, Request};

/// The rows of a PATT.
fn pattern_rows(refused: &Refused) -> Vec<CumulativeRow> {
    match read(refused.line) {
        Ok(Request::Pattern { rows, .. }) => rows,
        _ => Vec::new(),
    }
}

/// Question 11.
pub fn paid_not_within_incurred(refused: &Refused) -> Fault {
    let rows = pattern_rows(refused);
    let mut places = Vec::new();
    for (age, row) in (1..).zip(&rows) {
        let where_it_is = format!("age {age} ({})", places_in_pattern(age));
        let [paid, incurred] = [row.paid, row.incurred].map(thousands);
        if row.incurred == 0 {
            places.push(format!("{where_it_is}: incurred is 0 (paid {paid})"));
        } else if row.paid > row.incurred {
            places.push(format!(
                "{where_it_is}: paid {paid} is above incurred {incurred}"
            ));
        }
    }
    let exchanged = rows.iter().all(|row| row.paid >= row.incurred);
    let hint = "no paid is below its incurred: perhaps they are exchanged".to_string();
    Fault {
        places,
        hints: Vec::from_iter(exchanged.then_some(hint)),
    }
}

/// Question 12.
pub fn falling_ratios(refused: &Refused) -> Fault {
    let rows = pattern_rows(refused);
    let ratios: Vec<u64> = rows.iter().map(|row| cumulative_ratio(*row)).collect();
    let pairs = (1..).zip(ratios.windows(2).zip(rows.windows(2)));
    let falls = pairs.filter(|(_, (ratios, _))| ratios[0] > ratios[1]);
    let places = falls.map(|(age, (ratios, rows))| {
        let [before, after] = [ratios[0], ratios[1]].map(|ratio| decimal(ratio, 8));
        format!(
            "age {age} has {before} ({}), age {} has {after} ({})",
            division(rows[0]),
            age + 1,
            division(rows[1])
        )
    });
    let backwards = ratios.iter().rev().is_sorted();
    let hint = "no ratio rises: perhaps the oldest year stands first".to_string();
    Fault {
        places: places.collect(),
        hints: Vec::from_iter(backwards.then_some(hint)),
    }
}

/// "50 of 100"
fn division(row: CumulativeRow) -> String {
    format!("{} of {}", thousands(row.paid), thousands(row.incurred))
}

/// Question 13.
pub fn rows_without_pattern(refused: &Refused) -> Fault {
    let mut fault = Fault::default();
    let Ok(Request::Year { letter, year, rows }) = read(refused.line) else {
        return fault;
    };
    let Some(line) = refused.book.lines.get(&letter) else {
        return fault;
    };
    for (age, row) in (1..=letter.kind().ages()).zip(&rows) {
        if row.gross() == 0 || line.pattern_of_row(year, age).is_some() {
            continue;
        }
        let accident_year = year + 1 - age as u64;
        fault.places.push(format!(
            "age {age} ({}): gross {}, and no pattern of accident year {accident_year} is kept",
            places_in_year(age),
            thousands(row.gross())
        ));
        let needed = Subject::of_pattern(letter, accident_year);
        fault.hints.extend(refused.earlier.refusal_of(needed));
    }
    fault.places.push(kept_years(line));
    fault
}

/// Which patterns a line keeps: they are of successive years.
fn kept_years(line: &DeclaredLine) -> String {
    let years = line.patterns.iter().map(|kept| kept.accident_year);
    let years: Vec<u64> = years.collect();
    match years[..] {
        [] => "no pattern is kept".to_string(),
        [year] => format!("kept is the pattern of {year}"),
        [first, .., last] => format!("kept are the patterns of {first} to {last}"),
    }
}
