//! Random records that a book refuses with a given number in its present state.

use crate::accepted_record::{line_of, line_record, pattern_record, rate_record};
use crate::accepted_record::{sum_record, year_record, Fields};
use crate::book::{Book, DeclaredLine};
use crate::kinds::{Letter, FIRST_YEAR, LAST_YEAR};
use crate::misread_record::misread_line;
use crate::random::Random;
use crate::register_record::{month_given_before, refused_short_rate, short_rate_record};

/// A line that is refused with that number, if the book's state allows one.
pub fn refused_line(random: &mut Random, book: &Book, number: u8) -> Option<Vec<u8>> {
    let record = match number {
        7 => given_before(random, book),
        8 => undeclared(random, book),
        9 => without_rate(random, book),
        10 => out_of_turn(random, book),
        11 => paid_not_within_incurred(random, book),
        12 => falling_ratio(random, book),
        13 => gross_without_pattern(random, book),
        14 => refused_short_rate(random, book),
        _ => return misread_line(random, number),
    };
    record.map(line_of)
}

/// The first, in random order, of a LINE, a RATE and a MIDT that is given.
fn given_before(random: &mut Random, book: &Book) -> Option<Fields> {
    let kinds = [line_given_before, rate_given_before, month_given_before];
    let kinds = random.shuffled(&kinds);
    kinds.iter().find_map(|record| record(random, book))
}

fn line_given_before(random: &mut Random, book: &Book) -> Option<Fields> {
    let letters: Vec<Letter> = book.lines.keys().copied().collect();
    if letters.is_empty() {
        return None;
    }
    let letter = random.choice(&letters);
    Some(line_record(random, letter))
}

/// A RATE of either form, whichever the year's first one had, often of a year
/// whose months the register has.
fn rate_given_before(random: &mut Random, book: &Book) -> Option<Fields> {
    let years: Vec<u64> = book.rates.keys().copied().collect();
    if years.is_empty() {
        return None;
    }
    let has_months = |year: &&u64| book.register.lacking(**year).is_empty();
    let complete: Vec<u64> = years.iter().filter(has_months).copied().collect();
    let use_complete = !complete.is_empty() && random.once_in(2);
    let year = random.choice(if use_complete { &complete } else { &years });
    if random.once_in(2) {
        return Some(short_rate_record(year));
    }
    Some(rate_record(random, year))
}

fn undeclared(random: &mut Random, book: &Book) -> Option<Fields> {
    let letters = random.shuffled(&Letter::all());
    let mut undeclared = letters
        .iter()
        .filter(|letter| !book.lines.contains_key(letter));
    let letter = *undeclared.next()?;
    let year = random.between(FIRST_YEAR, LAST_YEAR);
    let fields = match random.below(3) {
        0 => return Some(sum_record(letter)),
        1 => pattern_record(random, letter, year),
        _ => year_record(random, letter, year, None),
    };
    Some(sometimes_spoiled(random, fields))
}

/// Once in three times a "no" to a later question is put in too: 11 in a PATT,
/// often 13 in a YEAR.
fn sometimes_spoiled(random: &mut Random, mut fields: Fields) -> Fields {
    if random.once_in(3) {
        if fields[0] == "PATT" {
            spoil_incurred(random, &mut fields);
        } else {
            let unpaid = 4 + 3 * random.place((fields.len() - 3) / 3);
            fields[unpaid] = "1000".to_string();
        }
    }
    fields
}

/// The first line, in random order, for which `record` makes a record.
fn of_some_line(
    random: &mut Random,
    book: &Book,
    record: impl Fn(&mut Random, Letter, &DeclaredLine) -> Option<Fields>,
) -> Option<Fields> {
    let letters: Vec<Letter> = book.lines.keys().copied().collect();
    let letters = random.shuffled(&letters);
    let mut records = letters
        .iter()
        .map(|letter| record(random, *letter, &book.lines[letter]));
    records.find_map(|record| record)
}

fn without_rate(random: &mut Random, book: &Book) -> Option<Fields> {
    let years: Vec<u64> = (FIRST_YEAR..=LAST_YEAR).collect();
    let years = random.shuffled(&years);
    let mut unrated = years.iter().filter(|year| !book.rates.contains_key(year));
    let year = *unrated.next()?;
    of_some_line(random, book, |random, letter, _line| {
        let fields = pattern_record(random, letter, year);
        Some(sometimes_spoiled(random, fields))
    })
}

fn out_of_turn(random: &mut Random, book: &Book) -> Option<Fields> {
    of_some_line(random, book, |random, letter, line| {
        let last = line.last_pattern_year().unwrap_or(FIRST_YEAR);
        let near = random.between(last.saturating_sub(2), last + 2);
        let year = near.clamp(FIRST_YEAR, LAST_YEAR);
        let rated = book.rates.contains_key(&year);
        let fields = if random.once_in(2) && !line.takes_year(year) {
            year_record(random, letter, year, Some(line))
        } else if rated && !line.takes_pattern(year) {
            pattern_record(random, letter, year)
        } else {
            return None;
        };
        Some(sometimes_spoiled(random, fields))
    })
}

/// The PATT that would be next for some line and whose year has a rate.
fn next_pattern(random: &mut Random, book: &Book) -> Option<Fields> {
    let rated: Vec<u64> = book.rates.keys().copied().collect();
    of_some_line(random, book, |random, letter, line| {
        let year = match line.last_pattern_year() {
            None if rated.is_empty() => return None,
            None => random.choice(&rated),
            Some(last) => last + 1,
        };
        let in_turn = book.rates.contains_key(&year) && line.takes_pattern(year);
        in_turn.then(|| pattern_record(random, letter, year))
    })
}

fn paid_not_within_incurred(random: &mut Random, book: &Book) -> Option<Fields> {
    let mut fields = next_pattern(random, book)?;
    spoil_incurred(random, &mut fields);
    Some(fields)
}

/// Gives one age of a PATT an incurred of 0 or a paid above its incurred.
fn spoil_incurred(random: &mut Random, fields: &mut Fields) {
    let age = random.place((fields.len() - 3) / 2);
    let paid = 3 + 2 * age;
    let amount = random.below(9_999_999_999);
    fields[paid] = amount.to_string();
    fields[paid + 1] = amount.to_string();
    match random.below(3) {
        0 => fields[paid + 1] = "0".to_string(),
        1 => fields[paid..paid + 2].fill("0".to_string()),
        _ => fields[paid] = (amount + 1).to_string(),
    }
}

/// The ratio of one age is a step of 1/100,000,000 or more below the one before.
fn falling_ratio(random: &mut Random, book: &Book) -> Option<Fields> {
    let mut fields = next_pattern(random, book)?;
    let age = 1 + random.place((fields.len() - 3) / 2 - 1);
    let paid = 3 + 2 * age;
    let ratio_before = random.between(1, 100_000_000);
    let step = random.choice(&[1, 2, 1_000, 100_000_000]).min(ratio_before);
    fields[paid - 2] = ratio_before.to_string();
    fields[paid] = (ratio_before - step).to_string();
    fields[paid - 1] = "100000000".to_string();
    fields[paid + 1] = "100000000".to_string();
    Some(fields)
}

/// The YEAR that would be next for some line, with a gross in an age row for
/// which no pattern is kept.
fn gross_without_pattern(random: &mut Random, book: &Book) -> Option<Fields> {
    of_some_line(random, book, |random, letter, line| {
        let year = line.last_pattern_year()?;
        let ages: Vec<usize> = (1..=letter.kind().ages())
            .filter(|age| line.pattern_of_row(year, *age).is_none())
            .collect();
        if ages.is_empty() || !line.takes_year(year) {
            return None;
        }
        let mut fields = year_record(random, letter, year, Some(line));
        let unpaid = 3 * random.choice(&ages) + 1;
        let place = unpaid + random.place(2);
        fields[place] = random.between(1, 10_000_000_000).to_string();
        Some(fields)
    })
}
