//! The bytes of a line read as a request: questions 1 to 6.

use crate::kinds::{Letter, NumberKind};
use crate::pattern::CumulativeRow;
use crate::question::Question;
use crate::rate::MONTHS;
use crate::register::Month;
use crate::reserve::Row;

/// "Make 418 the limit in question 1."
pub const LONGEST_LINE: usize = 418;

/// "Fields are parted by one tab."
pub const TAB: u8 = 9;

/// A record to which questions 1 to 6 have no "no".
#[derive(Clone, Debug, PartialEq, Eq)]
pub enum Request {
    Line {
        letter: Letter,
        opening: u64,
    },
    Rate {
        year: u64,
        monthly_rates: Vec<u64>,
    },
    /// The short RATE: its months are those of the register.
    RateOfRegister {
        year: u64,
    },
    MonthlyRate {
        month: Month,
        rate: u64,
    },
    Pattern {
        letter: Letter,
        year: u64,
        rows: Vec<CumulativeRow>,
    },
    Year {
        letter: Letter,
        year: u64,
        rows: Vec<Row>,
    },
    Sum {
        letter: Letter,
    },
}

/// The request in a line, or the first question with a "no". The byte 10 that
/// ends the line is not part of it.
pub fn read(line: &[u8]) -> Result<Request, Question> {
    read_within(line, LONGEST_LINE)
}

/// The same with another limit in question 1.
pub fn read_within(line: &[u8], longest_line: usize) -> Result<Request, Question> {
    if line.len() > longest_line {
        return Err(Question::LineLength);
    }
    let fields: Vec<&[u8]> = line.split(|byte| *byte == TAB).collect();
    match fields[0] {
        b"LINE" => read_line(&fields),
        b"RATE" => read_rate(&fields),
        b"PATT" => read_pattern(&fields),
        b"YEAR" => read_year(&fields),
        b"SUM" => read_sum(&fields),
        b"MIDT" => read_monthly_rate(&fields),
        _ => Err(Question::Word),
    }
}

/// "LINE, letter, opening."
fn read_line(fields: &[&[u8]]) -> Result<Request, Question> {
    let letter = letter(fields)?;
    let numbers = numbers(&fields[2..], &line_numbers())?;
    let opening = not_negative(numbers[0]);
    Ok(Request::Line { letter, opening })
}

/// "RATE, year, sixty rates: 62 fields.", or "RATE with a year alone".
fn read_rate(fields: &[&[u8]]) -> Result<Request, Question> {
    if fields.len() == SHORT_RATE_FIELDS {
        let numbers = numbers(&fields[1..], &short_rate_numbers())?;
        let year = not_negative(numbers[0]);
        return Ok(Request::RateOfRegister { year });
    }
    let numbers = numbers(&fields[1..], &rate_numbers())?;
    let monthly_rates = numbers[1..].iter().map(|rate| not_negative(*rate));
    Ok(Request::Rate {
        year: not_negative(numbers[0]),
        monthly_rates: monthly_rates.collect(),
    })
}

/// "A record MIDT with year (1980 to 2099), month (1 to 12) and rate"
fn read_monthly_rate(fields: &[&[u8]]) -> Result<Request, Question> {
    let numbers = numbers(&fields[1..], &monthly_rate_numbers())?;
    let [year, number, rate] = [0, 1, 2].map(|place: usize| not_negative(numbers[place]));
    let month = Month { year, number };
    Ok(Request::MonthlyRate { month, rate })
}

/// "PATT, letter, year, then paid and incurred an age: 23 or 7 fields."
fn read_pattern(fields: &[&[u8]]) -> Result<Request, Question> {
    let letter = letter(fields)?;
    let numbers = numbers(&fields[2..], &pattern_numbers(letter))?;
    let rows = numbers[1..].chunks(2).map(|pair| CumulativeRow {
        paid: not_negative(pair[0]),
        incurred: not_negative(pair[1]),
    });
    Ok(Request::Pattern {
        letter,
        year: not_negative(numbers[0]),
        rows: rows.collect(),
    })
}

/// "YEAR, letter, year, then paid, unpaid, tabular for each age, prior row
/// last: 36 or 12 fields."
fn read_year(fields: &[&[u8]]) -> Result<Request, Question> {
    let letter = letter(fields)?;
    let numbers = numbers(&fields[2..], &year_numbers(letter))?;
    let rows = numbers[1..].chunks(3).map(|three| Row {
        paid: three[0],
        unpaid: not_negative(three[1]),
        tabular_discount: not_negative(three[2]),
    });
    Ok(Request::Year {
        letter,
        year: not_negative(numbers[0]),
        rows: rows.collect(),
    })
}

/// "SUM has two fields and meets questions 1 to 4 and 8." It has no numbers.
fn read_sum(fields: &[&[u8]]) -> Result<Request, Question> {
    let letter = letter(fields)?;
    numbers(&fields[2..], &[])?;
    Ok(Request::Sum { letter })
}

/// The kinds of the numbers of a LINE, in their order.
pub fn line_numbers() -> Vec<NumberKind> {
    vec![NumberKind::Opening]
}

/// The kinds of the numbers of a RATE with sixty rates, in their order.
pub fn rate_numbers() -> Vec<NumberKind> {
    let mut kinds = vec![NumberKind::Year];
    kinds.extend([NumberKind::Rate; MONTHS]);
    kinds
}

/// The word and the year.
pub const SHORT_RATE_FIELDS: usize = 2;

/// The kinds of the numbers of a RATE "with a year alone".
pub fn short_rate_numbers() -> Vec<NumberKind> {
    vec![NumberKind::Year]
}

/// The kinds of the numbers of a MIDT, in their order.
pub fn monthly_rate_numbers() -> Vec<NumberKind> {
    vec![
        NumberKind::RegisterYear,
        NumberKind::Month,
        NumberKind::Rate,
    ]
}

/// The kinds of the numbers of a PATT, in their order.
pub fn pattern_numbers(letter: Letter) -> Vec<NumberKind> {
    let mut kinds = vec![NumberKind::Year];
    for _age in 0..letter.kind().ages() {
        kinds.extend([NumberKind::Amount, NumberKind::Amount]);
    }
    kinds
}

/// The kinds of the numbers of a YEAR, in their order.
pub fn year_numbers(letter: Letter) -> Vec<NumberKind> {
    let mut kinds = vec![NumberKind::Year];
    for _row in 0..letter.kind().ages() + 1 {
        kinds.extend([
            NumberKind::PaidInYear,
            NumberKind::Amount,
            NumberKind::Amount,
        ]);
    }
    kinds
}

/// "is the second field a covered letter? (no second field is a no)"
fn letter(fields: &[&[u8]]) -> Result<Letter, Question> {
    let letter = fields.get(1).and_then(|field| Letter::covered(field));
    letter.ok_or(Question::CoveredLetter)
}

/// Questions 4, 5 and 6, each put to the whole record before the next.
fn numbers(fields: &[&[u8]], kinds: &[NumberKind]) -> Result<Vec<i64>, Question> {
    if fields.len() != kinds.len() {
        return Err(Question::FieldCount);
    }
    let mut pairs = fields.iter().zip(kinds);
    if !pairs.all(|(field, kind)| well_written(field, *kind)) {
        return Err(Question::WellWritten);
    }
    let pairs = fields.iter().zip(kinds);
    pairs.map(|(field, kind)| within(field, *kind)).collect()
}

/// "A number is digits without leading zeros ("0" alone is right); a minus sign
/// is allowed only before a nonzero paid in YEAR."
pub fn well_written(field: &[u8], kind: NumberKind) -> bool {
    match field {
        b"0" => true,
        [b'-', digits @ ..] => kind == NumberKind::PaidInYear && nonzero_digits(digits),
        digits => nonzero_digits(digits),
    }
}

/// Digits of which the first is not zero.
fn nonzero_digits(digits: &[u8]) -> bool {
    let first_is_nonzero = digits.first().is_some_and(|digit| *digit != b'0');
    first_is_nonzero && digits.iter().all(u8::is_ascii_digit)
}

/// "Is every number within its limits?"
fn within(field: &[u8], kind: NumberKind) -> Result<i64, Question> {
    let number = value(field);
    if number < kind.lowest() || number > kind.highest() {
        return Err(Question::WithinLimits);
    }
    Ok(i64::try_from(number).expect("every limit fits"))
}

/// The value of a well-written number. One too large for its type stops at the
/// type's end, which is past every limit.
pub fn value(field: &[u8]) -> i128 {
    match field {
        [b'-', digits @ ..] => -value(digits),
        digits => digits.iter().fold(0_i128, |number, digit| {
            let digit = i128::from(*digit - b'0');
            number.saturating_mul(10).saturating_add(digit)
        }),
    }
}

/// A number whose lowest limit is not below 0.
fn not_negative(number: i64) -> u64 {
    u64::try_from(number).expect("the lowest limit is not below 0")
}
