//! Random lines that are refused as they are read: questions 1 to 6.

use crate::accepted_record::{line_of, sum_record, year_record, Fields};
use crate::accepted_record::{line_record, pattern_record, rate_record};
use crate::kinds::{Letter, NumberKind, FIRST_YEAR, LAST_YEAR};
use crate::random::Random;
use crate::rate::MONTHS;
use crate::record::{line_numbers, monthly_rate_numbers, pattern_numbers, rate_numbers};
use crate::record::{short_rate_numbers, year_numbers, LONGEST_LINE, SHORT_RATE_FIELDS};
use crate::register_record::{any_month_record, short_rate_record};

/// A line that is refused with that number, if it is one from 1 to 6.
pub fn misread_line(random: &mut Random, number: u8) -> Option<Vec<u8>> {
    match number {
        1 => Some(long_line(random)),
        2 => Some(not_too_long(random, wrong_word_line)),
        3 => Some(not_too_long(random, wrong_letter)),
        4 => Some(not_too_long(random, |random| line_of(wrong_count(random)))),
        5 => Some(not_too_long(random, badly_written_line)),
        6 => Some(not_too_long(random, past_a_limit_line)),
        _ => None,
    }
}

/// A record of any of the six words to which questions 1 to 6 have no "no".
fn any_record(random: &mut Random) -> Fields {
    if random.once_in(4) {
        return any_sum(random);
    }
    record_with_numbers(random)
}

fn any_sum(random: &mut Random) -> Fields {
    sum_record(random.choice(&Letter::all()))
}

/// The same of any word but SUM, which has no numbers.
fn record_with_numbers(random: &mut Random) -> Fields {
    let letter = random.choice(&Letter::all());
    let year = random.between(FIRST_YEAR, LAST_YEAR);
    match random.below(6) {
        0 => line_record(random, letter),
        1 => rate_record(random, year),
        2 => pattern_record(random, letter, year),
        3 => short_rate_record(year),
        4 => any_month_record(random),
        _ => year_record(random, letter, year, None),
    }
}

/// A line of 419 bytes or more, whose start is often a good record.
fn long_line(random: &mut Random) -> Vec<u8> {
    let line = match random.below(6) {
        0 => wrong_word(random),
        1 => wrong_letter(random),
        2 => line_of(past_a_limit(random)),
        3 => line_of(any_sum(random)),
        _ => line_of(any_record(random)),
    };
    let length = LONGEST_LINE + 1 + random.choice(&[0, 0, 0, 1, 100, 500, 900, 5_000]);
    filled(line, length, random.choice(b"0 \tx"))
}

/// The first of the lines made that question 1 lets through.
fn not_too_long(random: &mut Random, line: impl Fn(&mut Random) -> Vec<u8>) -> Vec<u8> {
    let mut lines = std::iter::repeat_with(|| line(random));
    let found = lines.find(|line| line.len() <= LONGEST_LINE);
    found.expect("most lines are short")
}

/// A shorter line is filled up to the length.
fn filled(mut line: Vec<u8>, length: usize, filler: u8) -> Vec<u8> {
    line.resize(line.len().max(length), filler);
    line
}

/// Now and then a line is filled up to the longest that there is.
fn sometimes_filled(random: &mut Random, line: Vec<u8>, filler: u8) -> Vec<u8> {
    if random.once_in(8) {
        return filled(line, LONGEST_LINE, filler);
    }
    line
}

fn wrong_word_line(random: &mut Random) -> Vec<u8> {
    let line = wrong_word(random);
    sometimes_filled(random, line, b'x')
}

fn wrong_word(random: &mut Random) -> Vec<u8> {
    let words: &[&str] = &[
        "",
        "line",
        "LINES",
        "LIN",
        "FACT",
        "TAX",
        "NO",
        "DONE",
        " RATE",
        "\u{feff}YEAR",
    ];
    let near_sum: &[&str] = &["sum", "Sum", "SUMS", "SU", "SUM ", " SUM"];
    let near_month: &[&str] = &["midt", "Midt", "MIDTS", "MID", "MIDT ", " MIDT"];
    let mut fields = any_record(random);
    match random.below(8) {
        0 => Vec::new(),
        1 => random_bytes(random),
        2 => [b"\r", line_of(fields).as_slice()].concat(),
        place => {
            let words = match place {
                3 | 4 => near_sum,
                5 | 6 => near_month,
                _ => words,
            };
            fields[0] = random.choice(words).to_string();
            line_of(fields)
        }
    }
}

/// Bytes of which none is a byte 10, beginning with one that starts no word.
fn random_bytes(random: &mut Random) -> Vec<u8> {
    let mut bytes = vec![random.between(128, 255) as u8];
    for _ in 0..random.below(40) {
        bytes.push(random.below(256) as u8);
    }
    bytes.retain(|byte| *byte != b'\n');
    bytes
}

fn wrong_letter(random: &mut Random) -> Vec<u8> {
    let letters = [
        "", "M", "N", "O", "P", "Q", "U", "Z", "a", "j", "AA", "J ", "J\r", "0", "2015", "\r",
    ];
    let word = random.choice(&["LINE", "PATT", "YEAR", "SUM"]).to_string();
    if random.once_in(5) {
        return word.into_bytes();
    }
    let mut fields = any_record(random);
    fields[0] = word;
    fields[1] = random.choice(&letters).to_string();
    line_of(fields)
}

fn wrong_count(random: &mut Random) -> Fields {
    let mut fields = match random.below(3) {
        0 => past_a_limit(random),
        1 => return sum_with_more_fields(random),
        _ => record_with_numbers(random),
    };
    let has_letter = !["RATE", "MIDT"].contains(&fields[0].as_str());
    let fewest = if has_letter { 2 } else { 1 };
    let last = fields.len() - 1;
    match random.below(5) {
        0 => fields.truncate(last.max(fewest)),
        1 => fields.push(String::new()),
        2 => fields.insert(last, "0".to_string()),
        // A long RATE cut after its year would be a short one.
        3 if last > MONTHS => fields.truncate(random.between(3, MONTHS as u64) as usize),
        _ => fields.truncate(fewest),
    }
    fields
}

/// A SUM with a third field, and often more. Its second is the letter, so it
/// has never too few.
fn sum_with_more_fields(random: &mut Random) -> Fields {
    let mut fields = any_sum(random);
    for _ in 0..random.choice(&[1, 1, 1, 2, 3]) {
        fields.push(random.choice(&["", "", "0", "2015", "A"]).to_string());
    }
    fields
}

/// The kind of each number of a record, and the place of its first number.
fn kinds_of_numbers(fields: &Fields) -> (usize, Vec<NumberKind>) {
    let letter = Letter::covered(fields[1].as_bytes());
    match (fields[0].as_str(), letter) {
        ("LINE", _) => (2, line_numbers()),
        ("MIDT", _) => (1, monthly_rate_numbers()),
        ("RATE", _) if fields.len() == SHORT_RATE_FIELDS => (1, short_rate_numbers()),
        ("PATT", Some(letter)) => (2, pattern_numbers(letter)),
        ("YEAR", Some(letter)) => (2, year_numbers(letter)),
        _ => (1, rate_numbers()),
    }
}

/// One number badly written; now and then another one is past its limit.
fn badly_written(random: &mut Random) -> Vec<u8> {
    let wrong = [
        "", "-", "00", "007", "-0", "-05", "+5", " 5", "5 ", "1.0", "1e3", "5\r", "--5", "x",
        "1,000",
    ];
    let fields = match random.below(3) {
        0 => past_a_limit(random),
        _ => record_with_numbers(random),
    };
    let (first, kinds) = kinds_of_numbers(&fields);
    let place = random.place(kinds.len());
    let mut parts: Vec<Vec<u8>> = fields.into_iter().map(String::into_bytes).collect();
    parts[first + place] = match random.below(8) {
        0 => vec![b'5', random.choice(b"\0\x0b\x0c\r /:-\x7f\x80\xff")],
        1 | 2 if kinds[place] == NumberKind::PaidInYear => b"-0".to_vec(),
        1 | 2 => b"-5".to_vec(),
        _ => random.choice(&wrong).as_bytes().to_vec(),
    };
    parts.join(&b'\t')
}

fn badly_written_line(random: &mut Random) -> Vec<u8> {
    let line = badly_written(random);
    sometimes_filled(random, line, b'x')
}

/// Digits that fill the line up would give a last 0 a leading zero.
fn past_a_limit_line(random: &mut Random) -> Vec<u8> {
    let line = line_of(past_a_limit(random));
    if line.ends_with(b"\t0") {
        return line;
    }
    sometimes_filled(random, line, b'7')
}

/// One number past its limit, by one or by much.
fn past_a_limit(random: &mut Random) -> Fields {
    let mut fields = record_with_numbers(random);
    let (first, kinds) = kinds_of_numbers(&fields);
    let place = random.place(kinds.len());
    let kind = kinds[place];
    let below = kind.lowest() - 1;
    fields[first + place] = match random.below(5) {
        0 => "9".repeat(random.choice(&[12, 19, 20, 39, 40, 400])),
        1 => [
            "18446744073709551616",
            "340282366920938463463374607431768211456",
        ][random.place(2)]
        .to_string(),
        2 | 3 if below >= 0 || kind == NumberKind::PaidInYear => below.to_string(),
        _ => (kind.highest() + 1).to_string(),
    };
    fields
}
