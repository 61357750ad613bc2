//! Random records of the register: MIDT and the short RATE.

use crate::accepted_record::Fields;
use crate::book::Book;
use crate::kinds::{FIRST_REGISTER_YEAR, FIRST_YEAR, HIGHEST_RATE, LAST_REGISTER_YEAR, LAST_YEAR};
use crate::random::Random;
use crate::register::{months_of_year, Month, Register};

pub fn short_rate_record(year: u64) -> Fields {
    vec!["RATE".to_string(), year.to_string()]
}

pub fn monthly_rate_record(month: Month, rate: u64) -> Fields {
    let numbers = [month.year, month.number, rate].map(|number| number.to_string());
    ["MIDT".to_string()].into_iter().chain(numbers).collect()
}

/// A MIDT of any month at any rate.
pub fn any_month_record(random: &mut Random) -> Fields {
    let month = random.choice(&all_months());
    let rate = any_rate(random);
    monthly_rate_record(month, rate)
}

/// "year (1980 to 2099), month (1 to 12)"
pub fn all_months() -> Vec<Month> {
    let years = FIRST_REGISTER_YEAR..=LAST_REGISTER_YEAR;
    years.flat_map(months_of_year).collect()
}

fn any_rate(random: &mut Random) -> u64 {
    match random.below(12) {
        0 => 0,
        1 => HIGHEST_RATE,
        _ => random.between(0, HIGHEST_RATE),
    }
}

/// A rate near one of the same year, or of the year before, that is given.
fn rate_near(random: &mut Random, register: &Register, month: Month) -> u64 {
    let years = [month.year, month.year - 1].into_iter();
    let rates = years
        .flat_map(months_of_year)
        .map(|near| register.rate(near));
    match rates.flatten().next() {
        Some(near) if !random.once_in(8) => {
            let rate = (near + random.below(201)).saturating_sub(100);
            rate.min(HIGHEST_RATE)
        }
        _ => any_rate(random),
    }
}

/// The accident years whose months a stream gives, in this order: successive ones
/// at either end and from a random one on, each of which needs twelve more, and
/// then all.
pub fn years_to_fill(random: &mut Random) -> Vec<u64> {
    let start = random.between(FIRST_YEAR + 5, LAST_YEAR - 10);
    let first: Vec<u64> = (FIRST_YEAR..FIRST_YEAR + 5).collect();
    let last: Vec<u64> = (LAST_YEAR - 4..=LAST_YEAR).rev().collect();
    let others: Vec<u64> = (start..start + 5).collect();
    let mut years = random.shuffled(&[first, last, others]).concat();
    years.extend(start..=LAST_YEAR);
    years.extend(FIRST_YEAR..start);
    years
}

/// The MIDT of a month that is still to be given: most often of the first of
/// these accident years that lacks some. The last month of a year is often left
/// out for a while, and now and then any month is given.
pub fn next_month_record(random: &mut Random, book: &Book, years: &[u64]) -> Option<Fields> {
    let register = &book.register;
    let lacking = if random.once_in(10) {
        None
    } else {
        let lacking = years.iter().map(|year| register.lacking(*year));
        let mut lacking = lacking.filter(|months| !months.is_empty());
        lacking.find(|months| months.len() > 1 || random.once_in(8))
    };
    let lacking = lacking.unwrap_or_else(|| not_given(register));
    let first = *lacking.first()?;
    let month = match random.below(3) {
        0 => first,
        _ => random.choice(&lacking),
    };
    let rate = rate_near(random, register, month);
    Some(monthly_rate_record(month, rate))
}

fn not_given(register: &Register) -> Vec<Month> {
    let mut months = all_months();
    months.retain(|month| register.rate(*month).is_none());
    months
}

/// The MIDT of a month that is given, at the same rate or at another.
pub fn month_given_before(random: &mut Random, book: &Book) -> Option<Fields> {
    let months = book.register.months();
    if months.is_empty() {
        return None;
    }
    let month = random.choice(&months);
    let given = book.register.rate(month);
    let other = any_rate(random);
    let rate = given.filter(|_| random.once_in(2)).unwrap_or(other);
    Some(monthly_rate_record(month, rate))
}

/// The accident years that have no rate, with the months that each lacks.
fn years_without_rate(book: &Book) -> Vec<(u64, usize)> {
    let years = (FIRST_YEAR..=LAST_YEAR).filter(|year| !book.rates.contains_key(year));
    let lacking = |year| (year, book.register.lacking(year).len());
    years.map(lacking).collect()
}

/// A short RATE of a year, one of some, that has no rate and lacks exactly so many
/// months.
pub fn short_rate_lacking(
    random: &mut Random,
    book: &Book,
    months: usize,
    is_one_of: impl Fn(u64) -> bool,
) -> Option<Fields> {
    let mut years = years_without_rate(book);
    years.retain(|(year, lacking)| *lacking == months && is_one_of(*year));
    if years.is_empty() {
        return None;
    }
    Some(short_rate_record(random.choice(&years).0))
}

/// A short RATE of a year that has no rate and lacks months, often the fewest.
pub fn refused_short_rate(random: &mut Random, book: &Book) -> Option<Fields> {
    let mut years = years_without_rate(book);
    years.retain(|(_, lacking)| *lacking > 0);
    let (nearest, _) = years.iter().min_by_key(|(_, lacking)| *lacking)?;
    let year = match random.below(4) {
        0 => random.choice(&years).0,
        _ => *nearest,
    };
    Some(short_rate_record(year))
}
