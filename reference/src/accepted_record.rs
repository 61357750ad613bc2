//! Random records that a book accepts in its present state.

use std::ops::RangeInclusive;

use crate::book::{Book, DeclaredLine};
use crate::kinds::{Letter, HIGHEST_AMOUNT, HIGHEST_OPENING, HIGHEST_RATE};
use crate::pattern::{cumulative_ratio, CumulativeRow};
use crate::random::Random;
use crate::rate::MONTHS;
use crate::register_record::short_rate_record;

/// The fields of a record.
pub type Fields = Vec<String>;

/// Fields parted by one tab.
pub fn line_of(fields: Fields) -> Vec<u8> {
    fields.join("\t").into_bytes()
}

/// The next record for a line: LINE, then for each year a RATE if it is still
/// to be given, a PATT and a YEAR. Before the first YEAR there may be several
/// PATT. Nothing if the line has come to the last of the years.
pub fn next_record(
    random: &mut Random,
    book: &Book,
    letter: Letter,
    years: &RangeInclusive<u64>,
) -> Option<Fields> {
    let Some(line) = book.lines.get(&letter) else {
        return Some(line_record(random, letter));
    };
    let next_year = next_pattern_year(random, book, line, years);
    match line.last_pattern_year() {
        Some(year) if line.takes_year(year) => {
            let close = line.last_closing.is_some() || random.once_in(4);
            match next_year {
                Some(next_year) if !close => Some(rate_or_pattern(random, book, letter, next_year)),
                _ => Some(year_record(random, letter, year, Some(line))),
            }
        }
        _ => next_year.map(|next_year| rate_or_pattern(random, book, letter, next_year)),
    }
}

/// The year of the line's next pattern, at random for the first; often one whose
/// months the register has.
fn next_pattern_year(
    random: &mut Random,
    book: &Book,
    line: &DeclaredLine,
    years: &RangeInclusive<u64>,
) -> Option<u64> {
    let (first, last) = (*years.start(), *years.end());
    match line.last_pattern_year() {
        None => Some(match random.below(5) {
            0 => first,
            1 => random.between(first, last),
            2 => first_complete_year(book, years).unwrap_or(first),
            _ => random.between(first, first + 20),
        }),
        Some(year) if year < last => Some(year + 1),
        Some(_) => None,
    }
}

/// The first of the years whose months the register has, if there is one.
fn first_complete_year(book: &Book, years: &RangeInclusive<u64>) -> Option<u64> {
    let mut years = years.clone();
    years.find(|year| book.register.lacking(*year).is_empty())
}

fn rate_or_pattern(random: &mut Random, book: &Book, letter: Letter, year: u64) -> Fields {
    if book.rates.contains_key(&year) {
        pattern_record(random, letter, year)
    } else {
        rate_of_either_form(random, book, year)
    }
}

/// Mostly a short RATE, if the register has its months.
fn rate_of_either_form(random: &mut Random, book: &Book, year: u64) -> Fields {
    if book.register.lacking(year).is_empty() && !random.once_in(4) {
        return short_rate_record(year);
    }
    rate_record(random, year)
}

pub fn line_record(random: &mut Random, letter: Letter) -> Fields {
    let opening = match random.below(8) {
        0 => HIGHEST_OPENING,
        _ => 7 * random.amount(),
    };
    vec![
        "LINE".into(),
        letter.character().into(),
        opening.to_string(),
    ]
}

pub fn sum_record(letter: Letter) -> Fields {
    vec!["SUM".into(), letter.character().into()]
}

/// The SUM of one of the lines that are declared, if there is one.
pub fn sum_of_some_line(random: &mut Random, book: &Book) -> Option<Fields> {
    let letters: Vec<Letter> = book.lines.keys().copied().collect();
    (!letters.is_empty()).then(|| sum_record(random.choice(&letters)))
}

/// Sixty rates about a level of the year's own, from 0 to the highest.
pub fn rate_record(random: &mut Random, year: u64) -> Fields {
    let level = match random.below(12) {
        0 => 0,
        1 => HIGHEST_RATE,
        _ => random.between(0, HIGHEST_RATE),
    };
    let distance = random.choice(&[0, 3, 60, HIGHEST_RATE]);
    let lowest = level.saturating_sub(distance);
    let highest = (level + distance).min(HIGHEST_RATE);
    let mut fields = vec!["RATE".to_string(), year.to_string()];
    for _month in 0..MONTHS {
        fields.push(random.between(lowest, highest).to_string());
    }
    fields
}

/// With this incurred every odd paid has a ratio that ends in a half.
const INCURRED_OF_HALVES: u64 = 200_000_000;

/// A PATT in which no ratio falls; now and then the widest that there is.
pub fn pattern_record(random: &mut Random, letter: Letter, year: u64) -> Fields {
    let mut fields = vec!["PATT".into(), letter.character().into(), year.to_string()];
    if random.once_in(100) {
        fields.extend(vec![HIGHEST_AMOUNT.to_string(); 2 * letter.kind().ages()]);
        return fields;
    }
    let highest = match random.below(8) {
        0 => HIGHEST_AMOUNT,
        1 => random.between(1, 1_000),
        2 => INCURRED_OF_HALVES,
        _ => random.between(2_000_000, HIGHEST_AMOUNT),
    };
    let varies = highest >= 2_000_000 && highest != INCURRED_OF_HALVES;
    let mut incurred = highest;
    let mut billionths_before = 0;
    for billionths in cumulative_billionths(random, letter.kind().ages()) {
        // Where the ratio rises enough, the age gets an incurred of its own.
        if varies && billionths >= billionths_before + 1_000 {
            incurred = random.between(highest / 2, highest);
        }
        let mut paid = paid_of(incurred, billionths);
        // Where the ratio stays, the paid may fall by what the rounding hides.
        if billionths == billionths_before && rounding_hides_one(paid, incurred) {
            paid -= 1;
        }
        fields.push(paid.to_string());
        fields.push(incurred.to_string());
        billionths_before = billionths;
    }
    fields
}

/// The paid, rounded up, that is so many billionths of an incurred.
fn paid_of(incurred: u64, billionths: u64) -> u64 {
    let product = u128::from(incurred) * u128::from(billionths);
    let paid = product.div_ceil(1_000_000_000);
    u64::try_from(paid).expect("at most the incurred")
}

/// Whether a paid and the one below it have the same cumulative ratio.
fn rounding_hides_one(paid: u64, incurred: u64) -> bool {
    let ratio = |paid| cumulative_ratio(CumulativeRow { paid, incurred });
    paid > 0 && ratio(paid - 1) == ratio(paid)
}

/// Cumulative ratios that do not fall: mostly large payments and a tail of 0.1
/// to 60 percent; now and then nothing, everything or little paid by some age,
/// and often nothing in the last year.
fn cumulative_billionths(random: &mut Random, ages: usize) -> Vec<u64> {
    if ages == 10 && random.once_in(10) {
        return with_small_last_payments(random);
    }
    let unpaid = match random.below(10) {
        0 => 0,
        1 => random.between(900_000_000, 1_000_000_000),
        _ => random.between(1_000_000, 600_000_000),
    };
    let mut weights: Vec<u64> = (0..ages).map(|_| random.between(10, 1_000)).collect();
    if random.once_in(8) {
        let place = random.place(ages);
        weights[place..].fill(0);
    }
    if random.once_in(5) {
        stop_in_last_year(random, &mut weights);
    }
    let all_weights = weights.iter().sum::<u64>().max(1);
    let mut weight_so_far = 0;
    let mut cumulative = Vec::new();
    for weight in weights {
        weight_so_far += weight;
        cumulative.push((1_000_000_000 - unpaid) * weight_so_far / all_weights);
    }
    cumulative
}

/// Nothing is paid in the last year, and now and then nothing in one or both of
/// the two years before it.
fn stop_in_last_year(random: &mut Random, weights: &mut [u64]) {
    let ages = weights.len();
    weights[ages - 1] = 0;
    for weight in &mut weights[ages.saturating_sub(3)..ages - 1] {
        if random.once_in(3) {
            *weight = 0;
        }
    }
}

/// Ten cumulative ratios: nearly all is paid in the first year, a few half
/// units at ages 8 and 9, and nothing at age 10.
fn with_small_last_payments(random: &mut Random) -> Vec<u64> {
    let mut cumulative = vec![1_000_000_000 - 10 * random.between(20, 60); 10];
    for place in [7, 8] {
        let payment = 10 * random.below(5);
        for later in &mut cumulative[place..] {
            *later += payment;
        }
    }
    cumulative
}

/// A YEAR whose age rows have a gross only where the line keeps a pattern; now
/// and then the widest such one.
pub fn year_record(
    random: &mut Random,
    letter: Letter,
    year: u64,
    line: Option<&DeclaredLine>,
) -> Fields {
    let mut fields = vec!["YEAR".into(), letter.character().into(), year.to_string()];
    let ages = letter.kind().ages();
    let widest = random.once_in(12);
    for age in 1..=ages + 1 {
        let has_pattern = line.is_some_and(|line| line.pattern_of_row(year, age).is_some());
        let [paid, unpaid, tabular] = if widest {
            widest_row()
        } else {
            any_row(random)
        };
        fields.push(paid);
        if age > ages || has_pattern {
            fields.extend([unpaid, tabular]);
        } else {
            fields.extend(["0".to_string(), "0".to_string()]);
        }
    }
    fields
}

fn widest_row() -> [String; 3] {
    let highest = HIGHEST_AMOUNT.to_string();
    [format!("-{highest}"), highest.clone(), highest]
}

fn any_row(random: &mut Random) -> [String; 3] {
    let paid = paid_in_year(random);
    let unpaid = random.amount().to_string();
    [paid, unpaid, tabular_discount(random)]
}

fn paid_in_year(random: &mut Random) -> String {
    let paid = random.amount();
    if paid > 0 && random.once_in(4) {
        format!("-{paid}")
    } else {
        paid.to_string()
    }
}

fn tabular_discount(random: &mut Random) -> String {
    if random.once_in(2) {
        random.amount().to_string()
    } else {
        "0".to_string()
    }
}
