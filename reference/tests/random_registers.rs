//! Random streams fill registers: whole windows, windows that lack one month, the
//! first and the last, months given twice and both forms of RATE.

mod common;

use std::collections::BTreeMap;

use common::output;
use reference::answer::Answer;
use reference::book::Book;
use reference::question::Question;
use reference::record::{read, Request};
use reference::run::records;
use reference::stream::random_stream;

const SEEDS: std::ops::Range<u64> = 0..12;
const RECORDS: usize = 1_500;

/// Which form a year's rate was given in.
#[derive(Clone, Copy, PartialEq, Eq)]
enum Form {
    Short,
    Long,
}

/// What the records of the register show in one stream.
#[derive(Default)]
struct Variety {
    months: usize,
    months_that_no_rate_takes: usize,
    same_month_twice: usize,
    other_rate_for_a_month: usize,
    short_rates: Vec<u64>,
    short_rates_with_one_month_lacking: usize,
    short_rates_with_none_given: usize,
    accepted_after_a_refusal: usize,
    patterns_of_short_rates: usize,
    /// By the first form, and then the second.
    short_after_short: usize,
    short_after_long: usize,
    long_after_short: usize,
    /// A year that has a rate and lacks months.
    seven_before_fourteen: usize,
    forms: BTreeMap<u64, Form>,
    lacked: Vec<u64>,
}

impl Variety {
    fn of(stream: &[u8]) -> Variety {
        let mut variety = Variety::default();
        let mut book = Book::default();
        for line in records(stream) {
            let before = book.clone();
            let answer = book.answer(line);
            if let Ok(request) = read(line) {
                variety.count(&request, &answer, &before);
            }
        }
        variety
    }

    fn count(&mut self, request: &Request, answer: &Answer, book: &Book) {
        let is_accepted = !matches!(answer, Answer::No(_));
        match request {
            Request::MonthlyRate { month, rate } if is_accepted => {
                self.months += 1;
                let is_not_taken = month.year < 1982 || month.year > 2098;
                self.months_that_no_rate_takes += usize::from(is_not_taken);
                assert!(*rate <= 2_500);
            }
            Request::MonthlyRate { month, rate } => {
                let is_same = book.register.rate(*month) == Some(*rate);
                self.same_month_twice += usize::from(is_same);
                self.other_rate_for_a_month += usize::from(!is_same);
            }
            Request::RateOfRegister { year } => self.count_short_rate(*year, answer, book),
            Request::Rate { year, .. } if is_accepted => {
                self.forms.insert(*year, Form::Long);
            }
            Request::Rate { year, .. } => {
                let is_short = self.forms[year] == Form::Short;
                self.long_after_short += usize::from(is_short);
            }
            Request::Pattern { year, .. } if is_accepted => {
                let is_short = self.forms[year] == Form::Short;
                self.patterns_of_short_rates += usize::from(is_short);
            }
            _ => {}
        }
    }

    fn count_short_rate(&mut self, year: u64, answer: &Answer, book: &Book) {
        let lacking = book.register.lacking(year).len();
        match answer {
            Answer::No(Question::MonthsGiven) => {
                self.short_rates_with_one_month_lacking += usize::from(lacking == 1);
                self.short_rates_with_none_given += usize::from(lacking == 60);
                self.lacked.push(year);
            }
            Answer::No(_) => {
                let is_long = self.forms[&year] == Form::Long;
                self.short_after_long += usize::from(is_long);
                self.short_after_short += usize::from(!is_long);
                self.seven_before_fourteen += usize::from(lacking > 0);
            }
            _ => {
                self.short_rates.push(year);
                self.forms.insert(year, Form::Short);
                self.accepted_after_a_refusal += usize::from(self.lacked.contains(&year));
            }
        }
    }
}

fn varieties() -> Vec<Variety> {
    SEEDS
        .map(|seed| Variety::of(&random_stream(seed, RECORDS)))
        .collect()
}

#[test]
fn every_stream_fills_windows_and_lacks_months() {
    for (seed, variety) in SEEDS.zip(varieties()) {
        assert!(variety.months > 180, "seed {seed}: {}", variety.months);
        assert!(variety.months_that_no_rate_takes > 0, "seed {seed}");
        assert!(variety.same_month_twice > 2, "seed {seed}");
        assert!(variety.other_rate_for_a_month > 2, "seed {seed}");
        assert!(variety.short_rates.len() > 1, "seed {seed}");
        assert!(variety.short_rates_with_none_given > 2, "seed {seed}");
        assert!(variety.seven_before_fourteen > 0, "seed {seed}");
        assert!(variety.short_after_long > 0, "seed {seed}");
    }
}

/// What is not in each stream is in some of them.
#[test]
fn the_streams_together_have_the_rarer_cases() {
    let varieties = varieties();
    let sum = |count: fn(&Variety) -> usize| varieties.iter().map(count).sum::<usize>();
    assert!(sum(|variety| variety.patterns_of_short_rates) > 20);
    assert!(sum(|variety| variety.accepted_after_a_refusal) > 10);
    assert!(sum(|variety| variety.short_after_short) > 4);
    assert!(sum(|variety| variety.long_after_short) > 4);
    let lack_one = |variety: &&Variety| variety.short_rates_with_one_month_lacking > 2;
    assert!(varieties.iter().filter(lack_one).count() > 8);
    for year in [1987, 2099] {
        let with_year = varieties
            .iter()
            .filter(|variety| variety.short_rates.contains(&year));
        assert!(with_year.count() > 2, "{year}");
    }
}

/// The refused records of the register, by their word and number.
fn refusals(seed: u64) -> BTreeMap<(String, String), usize> {
    let stream = random_stream(seed, RECORDS);
    let mut counts = BTreeMap::new();
    for (line, answer) in records(&stream).into_iter().zip(output(&stream)) {
        let text = String::from_utf8_lossy(line);
        let fields: Vec<&str> = text.split('\t').collect();
        let word = fields[0].trim().to_ascii_uppercase();
        let is_short_rate = word == "RATE" && fields.len() < 4;
        let is_month = word.starts_with("MID");
        if answer.starts_with("NO ") && (is_short_rate || is_month) {
            let word = if is_month { "MIDT" } else { "RATE" };
            *counts.entry((word.to_string(), answer)).or_insert(0) += 1;
        }
    }
    counts
}

/// "MIDT meets questions 1, 2 and 4 to 7.", and a RATE of two or three fields may
/// get 4 to 7 and 14.
#[test]
fn each_is_refused_with_each_of_its_numbers() {
    let mut counts = BTreeMap::new();
    for (key, count) in SEEDS.flat_map(refusals) {
        *counts.entry(key).or_insert(0) += count;
    }
    let numbers_of = |word: &str| -> Vec<String> {
        let keys = counts.keys().filter(|(of, _)| of == word);
        keys.map(|(_, number)| number.clone()).collect()
    };
    let months = ["NO 1", "NO 2", "NO 4", "NO 5", "NO 6", "NO 7"];
    assert_eq!(numbers_of("MIDT"), months);
    for number in ["NO 1", "NO 14", "NO 2", "NO 4", "NO 5", "NO 6", "NO 7"] {
        assert!(numbers_of("RATE").contains(&number.to_string()), "{number}");
    }
    assert!(counts.values().all(|count| *count > 2), "{counts:?}");
}
