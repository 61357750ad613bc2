//! MIDT and the short RATE: "RATE with a year alone then takes the sixty months
//! from January five years before to December of the year before."

mod common;

use common::{answer, book_after, output, rate};
use reference::answer::Answer;
use reference::book::Book;
use reference::full_register;
use reference::random::Random;
use reference::record::{read, Request};
use reference::run::records;
use reference::stream::random_stream;

/// A month, counted from January of year 0.
type Month = u64;

/// The MIDT of a month at a rate.
fn monthly(month: Month, rate: u64) -> String {
    format!("MIDT {} {} {rate}", month / 12, 1 + month % 12)
}

/// January of a year.
fn january(year: u64) -> Month {
    12 * year
}

/// Gives a month, which is accepted and printed back.
fn give(book: &mut Book, month: Month, rate: u64) {
    let record = monthly(month, rate);
    assert_eq!(answer(book, &record), record);
}

/// The months that a RATE takes.
fn months_of(year: u64) -> std::ops::Range<Month> {
    january(year - 5)..january(year)
}

/// A book with every month of the register, each at a rate of its own.
fn full_book() -> Book {
    let mut book = Book::default();
    for month in january(1980)..january(2100) {
        give(&mut book, month, month % 2_501);
    }
    book
}

#[test]
fn the_register_begins_in_1980_and_ends_in_2099() {
    let mut book = full_book();
    assert_eq!((book.accepted, book.refused), (1_440, 0));
    for record in ["MIDT 1979 12 5", "MIDT 2100 1 5"] {
        assert_eq!(answer(&mut book, record), "NO 6");
    }
}

/// "Question 7 also covers a month given twice.", also at the same rate.
#[test]
fn no_month_can_be_given_twice() {
    let mut book = full_book();
    for month in january(1980)..january(2100) {
        for rate in [month % 2_501, (month + 1) % 2_501] {
            assert_eq!(answer(&mut book, &monthly(month, rate)), "NO 7");
        }
    }
}

#[test]
fn every_year_has_the_rate_of_its_sixty_months() {
    let mut book = full_book();
    for year in 1987..=2099 {
        let sum: u64 = months_of(year).map(|month| month % 2_501).sum();
        let expected = format!("RATE {year} {}", (sum + 30) / 60);
        assert_eq!(answer(&mut book, &format!("RATE {year}")), expected);
    }
}

/// The first window ends with December 1986, the last with December 2098.
#[test]
fn the_first_and_the_last_year() {
    for year in [1987, 2099] {
        let mut book = Book::default();
        give(&mut book, january(year - 5) - 1, 0);
        give(&mut book, january(year), 0);
        for month in months_of(year) {
            assert_eq!(answer(&mut book, &format!("RATE {year}")), "NO 14");
            give(&mut book, month, 2_500);
        }
        let accepted = format!("RATE {year} 2500");
        assert_eq!(answer(&mut book, &format!("RATE {year}")), accepted);
    }
}

/// "P4 sum 8,850 gives rate 148; P5 8,849 gives 147."
#[test]
fn the_sum_is_rounded_as_that_of_a_long_rate() {
    for (last, expected) in [(150, "RATE 2015 148"), (149, "RATE 2015 147")] {
        let mut book = Book::default();
        let months: Vec<Month> = months_of(2015).collect();
        for month in &months[..58] {
            give(&mut book, *month, 150);
        }
        give(&mut book, months[58], last);
        give(&mut book, months[59], 0);
        assert_eq!(answer(&mut book, "RATE 2015"), expected);
    }
}

/// Each month of a window is needed, and no other stands for it.
#[test]
fn each_of_the_sixty_months_is_needed() {
    for lacking in months_of(2015) {
        let mut book = Book::default();
        for month in january(2009)..january(2016) {
            if month != lacking {
                give(&mut book, month, 700);
            }
        }
        let before = book.clone();
        assert_eq!(answer(&mut book, "RATE 2015"), "NO 14");
        let refused = before.refused + 1;
        assert_eq!(book, Book { refused, ..before });
        give(&mut book, lacking, 100);
        assert_eq!(answer(&mut book, "RATE 2015"), "RATE 2015 690");
    }
}

/// "14 after question 7": a year that has a rate gets 7, whether its months are
/// there or not.
#[test]
fn question_7_comes_before_14() {
    let mut book = book_after(&[&rate(2015, 5), &rate(2016, 6)]);
    assert_eq!(answer(&mut book, "RATE 2015"), "NO 7");
    assert_eq!(answer(&mut book, "RATE 2017"), "NO 14");
    for month in months_of(2016) {
        give(&mut book, month, 1);
    }
    assert_eq!(answer(&mut book, "RATE 2016"), "NO 7");
    assert_eq!(answer(&mut book, &rate(2016, 1)), "NO 7");
    assert_eq!(book.rates[&2016], 6);
}

/// "The long RATE still works." It fills no month and is compared with none.
#[test]
fn a_long_rate_and_the_register_leave_each_other_alone() {
    let mut book = Book::default();
    for month in months_of(2015) {
        give(&mut book, month, 1);
    }
    let register = book.register.clone();
    assert_eq!(answer(&mut book, &rate(2015, 9)), "RATE 2015 9");
    assert_eq!(book.register, register);
    assert_eq!(answer(&mut book, "RATE 2015"), "NO 7");
    assert_eq!(answer(&mut book, &rate(2020, 9)), "RATE 2020 9");
    assert_eq!(answer(&mut book, "RATE 2021"), "NO 14");
    assert_eq!(answer(&mut book, "MIDT 2019 12 8"), "MIDT 2019 12 8");
}

/// A month given twice keeps its first rate.
#[test]
fn the_first_rate_of_a_month_stays() {
    let mut book = Book::default();
    for month in months_of(2015) {
        give(&mut book, month, 300);
        assert_eq!(answer(&mut book, &monthly(month, 2_500)), "NO 7");
        assert_eq!(answer(&mut book, &monthly(month, 300)), "NO 7");
    }
    assert_eq!(answer(&mut book, "RATE 2015"), "RATE 2015 300");
    assert_eq!(answer(&mut book, &monthly(january(2010), 1)), "NO 7");
    assert_eq!(book.rates[&2015], 300);
}

/// A month that comes after the RATE changes nothing that was answered.
#[test]
fn months_may_come_in_any_order() {
    let mut random = Random::new(60);
    let months: Vec<Month> = months_of(2015).collect();
    for _ in 0..20 {
        let mut book = Book::default();
        for month in random.shuffled(&months) {
            give(&mut book, month, month % 60);
        }
        assert_eq!(answer(&mut book, "RATE 2015"), "RATE 2015 30");
    }
}

/// A register at random: each month is given with this chance of hundred.
fn random_register(random: &mut Random, percent: u64) -> Vec<Option<u64>> {
    let months = january(1980)..january(2100);
    let mut rate = || (random.below(100) < percent).then(|| random.below(2_501));
    months.map(|_| rate()).collect()
}

/// The answer to a short RATE by a calculation of its own.
fn expected_rate(register: &[Option<u64>], year: u64) -> String {
    let start = 12 * (year as usize - 1_985);
    let sixty: Option<Vec<u64>> = register[start..start + 60].iter().copied().collect();
    match sixty {
        None => "NO 14".to_string(),
        Some(rates) => {
            let twice_mean = rates.iter().sum::<u64>() * 2 + 60;
            format!("RATE {year} {}", twice_mean / 120)
        }
    }
}

#[test]
fn random_registers_give_the_rates_of_their_months() {
    let mut random = Random::new(1_980);
    let mut counts = [0, 0];
    for round in 0..30 {
        let register = random_register(&mut random, [100, 99, 98][round % 3]);
        let mut book = Book::default();
        for (month, rate) in (january(1980)..).zip(&register) {
            rate.iter().for_each(|rate| give(&mut book, month, *rate));
        }
        let years: Vec<u64> = (1987..=2099).collect();
        for year in random.shuffled(&years) {
            let expected = expected_rate(&register, year);
            assert_eq!(answer(&mut book, &format!("RATE {year}")), expected);
            counts[usize::from(expected == "NO 14")] += 1;
        }
    }
    assert!(counts.iter().all(|count| *count > 500), "{counts:?}");
}

/// The record with its sixty months in place of the register's, if it is a short
/// RATE and the book has them.
fn in_long_form(book: &Book, record: &[u8]) -> Option<Vec<u8>> {
    let Ok(Request::RateOfRegister { year }) = read(record) else {
        return None;
    };
    let rates: Vec<String> = book
        .register
        .rates_of(year)?
        .iter()
        .map(u64::to_string)
        .collect();
    Some(format!("RATE\t{year}\t{}", rates.join("\t")).into_bytes())
}

/// A short RATE and the long one of the same sixty months get the same answer and
/// leave the same book, and so all later answers are the same.
#[test]
fn a_short_rate_is_the_long_one_of_its_months() {
    let mut short_rates = 0;
    for seed in 300..312 {
        let [mut short, mut long] = [Book::default(), Book::default()];
        for record in records(&random_stream(seed, 1_500)) {
            let in_long_form = in_long_form(&short, record);
            let answer = short.answer(record);
            let accepted = !matches!(answer, Answer::No(_));
            short_rates += usize::from(in_long_form.is_some() && accepted);
            let record = in_long_form.unwrap_or_else(|| record.to_vec());
            assert_eq!(long.answer(&record), answer);
            assert_eq!(short, long);
        }
    }
    assert!(short_rates > 30, "{short_rates}");
}

/// Only an accepted MIDT moves the register, and nothing else by it.
#[test]
fn no_other_record_moves_the_register() {
    let mut book = Book::default();
    for record in records(&random_stream(312, 3_000)) {
        let before = book.clone();
        match book.answer(record) {
            Answer::MonthlyRate { month, rate } => {
                assert_eq!(before.register.rate(month), None);
                assert_eq!(book.register.rate(month), Some(rate));
                let count = before.register.months().len();
                assert_eq!(book.register.months().len(), count + 1);
                assert_eq!((&book.lines, &book.rates), (&before.lines, &before.rates));
            }
            _ => assert_eq!(book.register, before.register),
        }
    }
}

/// Every month is accepted once and refused once, and every year too.
#[test]
fn a_full_register() {
    let lines = output(&full_register::input());
    let count = |start: &str| lines.iter().filter(|line| line.starts_with(start)).count();
    assert_eq!((count("MIDT "), count("RATE ")), (1_440, 113));
    assert_eq!(count("NO 7") + count("NO 14"), 1_440 + 2 * 1_440 + 113);
    assert!(count("NO 14") > 2_000);
    assert_eq!(count("DONE "), 1);
}
