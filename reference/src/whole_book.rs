//! A whole book for the speed comparison: every letter and every year, with
//! numbers as a small company has them; the same book with its rates from the
//! register; and its patterns alone. Every record is accepted by an empty book.

use crate::accepted_record::{line_of, Fields};
use crate::input_text::ended_lines;
use crate::kinds::{Letter, LineKind};
use crate::kinds::{FIRST_REGISTER_YEAR, FIRST_YEAR, LAST_REGISTER_YEAR, LAST_YEAR};
use crate::random::Random;
use crate::rate::MONTHS;
use crate::register::{months_of_rate, months_of_year, Month};
use crate::register_record::{monthly_rate_record, short_rate_record};
use crate::run::records;

/// A LINE for each letter; for each year a RATE, and a PATT and a YEAR for each
/// letter.
pub const RECORDS: usize = 15 + 113 * (1 + 15 * 2);

/// The same with a MIDT for each month from 1980 to 2099.
pub const RECORDS_OF_REGISTER: usize = RECORDS + 120 * 12;

/// The same without a YEAR.
pub const RECORDS_OF_PATTERNS: usize = RECORDS - 113 * 15;

/// The seed of the book that the speed comparison runs.
pub const SEED: u64 = 846;

/// What of its losses a ten-year line has paid by each age, in millionths.
const TEN_YEAR_PAID: [u64; 10] = [
    342_000, 561_000, 702_000, 803_000, 872_000, 914_000, 941_000, 957_000, 968_000, 976_000,
];

/// The same of a two-year line.
const TWO_YEAR_PAID: [u64; 2] = [885_000, 991_000];

/// So far a paid share may lie above the usual one, in millionths: less than
/// the shares of two ages differ, so that no ratio falls.
const VARIATION: u64 = 6_000;

/// Where a book's rates come from.
#[derive(Clone, Copy, PartialEq, Eq)]
enum Rates {
    /// Each RATE has its sixty rates.
    Own,
    /// Each month has its MIDT, and each RATE its year alone.
    Register,
}

/// The whole book, each record ended with byte 10.
pub fn whole_book(seed: u64) -> Vec<u8> {
    book_with(seed, Rates::Own)
}

/// The same book with the same rates, all of them from the register.
pub fn whole_book_of_register(seed: u64) -> Vec<u8> {
    book_with(seed, Rates::Register)
}

/// The same book without its year ends, as a class loads it: while no year is closed
/// a PATT may follow the one before.
pub fn whole_book_of_patterns(seed: u64) -> Vec<u8> {
    let book = whole_book(seed);
    let is_year_end = |record: &&[u8]| record.starts_with(b"YEAR");
    ended_lines(
        records(&book)
            .into_iter()
            .filter(|record| !is_year_end(record)),
    )
}

fn book_with(seed: u64, rates: Rates) -> Vec<u8> {
    let mut random = Random::new(seed);
    let businesses: Vec<Business> = Letter::all()
        .into_iter()
        .map(|letter| Business::new(&mut random, letter))
        .collect();
    let mut book = Vec::new();
    for business in &businesses {
        put(&mut book, business.line());
    }
    let mut months = [random.between(300, 900); MONTHS];
    for _year_before in 0..5 {
        add_twelve_months(&mut random, &mut months);
    }
    for year in FIRST_YEAR..=LAST_YEAR {
        add_twelve_months(&mut random, &mut months);
        put_rate(&mut book, rates, year, &months);
        for business in &businesses {
            put(&mut book, business.pattern(&mut random, year));
            put(&mut book, business.year(&mut random, year));
        }
    }
    book
}

fn put(book: &mut Vec<u8>, fields: Fields) {
    book.extend(line_of(fields));
    book.push(b'\n');
}

/// Twelve new months in place of the oldest twelve; each rate is near the one
/// before.
fn add_twelve_months(random: &mut Random, months: &mut [u64; MONTHS]) {
    let mut rate = months[MONTHS - 1];
    months.rotate_left(12);
    for month in &mut months[MONTHS - 12..] {
        rate = (rate + random.below(81))
            .saturating_sub(40)
            .clamp(20, 1_600);
        *month = rate;
    }
}

/// The RATE of a year, after the MIDTs of its months that are still to be given.
fn put_rate(book: &mut Vec<u8>, rates: Rates, year: u64, months: &[u64; MONTHS]) {
    if rates == Rates::Own {
        return put(book, rate_record(year, months));
    }
    let last_rate = months[MONTHS - 1];
    if year == FIRST_YEAR {
        put_months(book, months_before_rates(), &[months[0]; MONTHS]);
        put_months(book, months_of_rate(year), months);
    } else {
        let new = months_of_year(year - 1).collect();
        put_months(book, new, &months[MONTHS - 12..]);
    }
    put(book, short_rate_record(year));
    if year == LAST_YEAR {
        let last = months_of_year(LAST_REGISTER_YEAR).collect();
        put_months(book, last, &[last_rate; MONTHS]);
    }
}

/// The months of the register before the first that a RATE takes.
fn months_before_rates() -> Vec<Month> {
    let first = months_of_rate(FIRST_YEAR)[0];
    let years = FIRST_REGISTER_YEAR..first.year;
    years.flat_map(months_of_year).collect()
}

fn put_months(book: &mut Vec<u8>, months: Vec<Month>, rates: &[u64]) {
    for (month, rate) in months.into_iter().zip(rates) {
        put(book, monthly_rate_record(month, *rate));
    }
}

fn rate_record(year: u64, months: &[u64; MONTHS]) -> Fields {
    let mut fields = vec!["RATE".to_string(), year.to_string()];
    fields.extend(months.iter().map(u64::to_string));
    fields
}

/// A line of business and the size of its usual losses in a year.
struct Business {
    letter: Letter,
    paid_by_age: &'static [u64],
    losses: u64,
}

impl Business {
    fn new(random: &mut Random, letter: Letter) -> Business {
        let paid_by_age: &[u64] = match letter.kind() {
            LineKind::TenYear => &TEN_YEAR_PAID,
            LineKind::TwoYear => &TWO_YEAR_PAID,
        };
        Business {
            letter,
            paid_by_age,
            losses: random.between(40_000, 2_000_000),
        }
    }

    fn record(&self, word: &str) -> Fields {
        vec![word.into(), self.letter.character().into()]
    }

    fn line(&self) -> Fields {
        let mut fields = self.record("LINE");
        fields.push((self.losses / 2).to_string());
        fields
    }

    /// The losses of one accident year.
    fn losses_of_a_year(&self, random: &mut Random) -> u64 {
        self.losses * random.between(700_000, 1_300_000) / 1_000_000
    }

    fn pattern(&self, random: &mut Random, year: u64) -> Fields {
        let mut fields = self.record("PATT");
        fields.push(year.to_string());
        for usually_paid in self.paid_by_age {
            let incurred = self.losses_of_a_year(random);
            let share = usually_paid + random.below(VARIATION);
            fields.push((incurred * share / 1_000_000).to_string());
            fields.push(incurred.to_string());
        }
        fields
    }

    /// Ages before the first accident year have payments alone.
    fn year(&self, random: &mut Random, year: u64) -> Fields {
        let mut fields = self.record("YEAR");
        fields.push(year.to_string());
        let mut paid_before = 0;
        for (age, paid) in self.paid_by_age.iter().enumerate() {
            let losses = self.losses_of_a_year(random);
            let has_pattern = year >= FIRST_YEAR + age as u64;
            let unpaid = if has_pattern { 1_000_000 - paid } else { 0 };
            self.row(random, losses, [paid - paid_before, unpaid], &mut fields);
            paid_before = *paid;
        }
        let losses = self.losses_of_a_year(random);
        let unpaid = 1_000_000 - paid_before;
        self.row(random, losses, [unpaid / 5, unpaid * 2], &mut fields);
        fields
    }

    /// Paid and unpaid by their shares in millionths. Once in twenty times more
    /// was recovered than paid; workers' compensation has tabular discounts.
    fn row(&self, random: &mut Random, losses: u64, shares: [u64; 2], fields: &mut Fields) {
        let [paid, unpaid] = shares.map(|share| losses * share / 1_000_000);
        let recovered = paid > 0 && random.once_in(20);
        fields.push(format!("{}{paid}", if recovered { "-" } else { "" }));
        fields.push(unpaid.to_string());
        let has_tabular = self.letter.character() == 'D';
        let tabular = if has_tabular { unpaid / 25 } else { 0 };
        fields.push(tabular.to_string());
    }
}
