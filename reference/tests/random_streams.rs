//! Random streams: every answer and every refusal number occurs, the counts
//! add up, and refusals leave the state as it was.

mod common;

use std::collections::BTreeMap;

use common::output;
use reference::accepted_record::{line_of, next_record};
use reference::answer::Answer;
use reference::book::{Book, DeclaredLine};
use reference::kinds::{Letter, LineKind, HIGHEST_AMOUNT, HIGHEST_RATE};
use reference::random::Random;
use reference::record::{read, Request};
use reference::refused_record::refused_line;
use reference::run::records;
use reference::stream::random_stream;
use reference::totals::Totals;

const SEEDS: std::ops::Range<u64> = 0..12;
const RECORDS: usize = 1_500;

/// How often each answer occurs; a NO is counted with its number.
fn counts_of(answers: impl IntoIterator<Item = String>) -> BTreeMap<String, usize> {
    let mut counts = BTreeMap::new();
    for line in answers {
        let fields: Vec<&str> = line.split(' ').collect();
        let answer = match fields[0] {
            "NO" => line.clone(),
            word => word.to_string(),
        };
        *counts.entry(answer).or_insert(0) += 1;
    }
    counts
}

#[test]
fn every_answer_and_every_refusal_number_occurs_often() {
    for seed in SEEDS {
        let counts = counts_of(output(&random_stream(seed, RECORDS)));
        for number in 1..=14 {
            let count = counts[&format!("NO {number}")];
            assert!(count >= RECORDS / 100, "seed {seed}, NO {number}: {count}");
        }
        let leasts = [
            ("LINE", 8),
            ("RATE", 40),
            ("FACT", 200),
            ("TAX", 150),
            ("SUM", 100),
            ("MIDT", 180),
        ];
        for (word, least) in leasts {
            assert!(counts[word] >= least, "seed {seed}, {word}");
        }
    }
}

#[test]
fn short_and_long_streams_have_every_answer_too() {
    for records in [700, 5_000, 12_000] {
        let counts = counts_of(output(&random_stream(77, records)));
        assert_eq!(counts.len(), 14 + 6 + 1, "{records} records: {counts:?}");
        assert_eq!(counts.values().sum::<usize>(), records + 1);
    }
    assert_eq!(random_stream(5, 0), b"");
}

#[test]
fn the_counts_of_done_add_up() {
    for seed in SEEDS {
        let lines = output(&random_stream(seed, RECORDS));
        let refused = lines.iter().filter(|line| line.starts_with("NO ")).count();
        assert_eq!(lines.len(), RECORDS + 1);
        let expected = format!("DONE {} {refused}", RECORDS - refused);
        assert_eq!(lines[RECORDS], expected);
    }
}

#[test]
fn refusals_leave_the_state_as_it_was() {
    for seed in SEEDS {
        let mut book = Book::default();
        for line in records(&random_stream(seed, 600)) {
            let before = book.clone();
            let answer = book.answer(line);
            let (accepted, refused) = (before.accepted, before.refused);
            if matches!(answer, Answer::No(_)) {
                let refused = refused + 1;
                assert_eq!(book, Book { refused, ..before });
            } else {
                assert_eq!((book.accepted, book.refused), (accepted + 1, refused));
            }
        }
    }
}

#[test]
fn a_record_made_to_be_refused_gets_its_number() {
    let mut book = Book::default();
    let mut random = Random::new(99);
    for line in records(&random_stream(7, 2_000)) {
        book.answer(line);
        for number in 1..=14 {
            if let Some(refused) = refused_line(&mut random, &book, number) {
                let answer = book.clone().answer(&refused);
                let Answer::No(question) = answer else {
                    panic!("accepted: {}", String::from_utf8_lossy(&refused));
                };
                assert_eq!(question.number(), number);
            }
        }
    }
}

#[test]
fn a_record_made_to_be_accepted_is_accepted() {
    let mut random = Random::new(98);
    for _ in 0..4 {
        let mut book = Book::default();
        for number in 0..2_000 {
            let letter = Letter::all()[number % 15];
            if let Some(fields) = next_record(&mut random, &book, letter, &(1987..=2099)) {
                let answer = book.answer(&line_of(fields.clone()));
                assert!(!matches!(answer, Answer::No(_)), "{fields:?}: {answer:?}");
            }
        }
    }
}

/// Lines of 418 bytes are accepted and refused, and longer ones get 1.
#[test]
fn lines_are_as_long_as_they_may_be_and_longer() {
    let streams = SEEDS.map(|seed| random_stream(seed, RECORDS));
    let answered = streams.flat_map(|stream| {
        let lengths: Vec<usize> = records(&stream).iter().map(|line| line.len()).collect();
        lengths.into_iter().zip(output(&stream))
    });
    let (longer, others): (Vec<_>, Vec<_>) = answered.partition(|(length, _)| *length > 418);
    assert!(longer.iter().all(|(_, answer)| answer == "NO 1"));
    assert!(longer.iter().filter(|(length, _)| *length == 419).count() > 100);
    let longest = others.into_iter().filter(|(length, _)| *length == 418);
    let counts = counts_of(longest.map(|(_, answer)| answer));
    for answer in ["NO 2", "NO 5", "NO 6", "TAX"] {
        assert!(counts[answer] > 10, "{counts:?}");
    }
}

#[test]
fn a_seed_gives_one_stream_and_some_streams_lack_the_last_byte_10() {
    let streams: Vec<Vec<u8>> = SEEDS.map(|seed| random_stream(seed, 300)).collect();
    assert_eq!(streams[3], random_stream(3, 300));
    assert_ne!(streams[3], streams[4]);
    let ended = streams.iter().filter(|stream| stream.ends_with(b"\n"));
    assert!((1..streams.len()).contains(&ended.count()));
}

/// What the accepted records of one stream show.
#[derive(Default)]
struct Variety {
    patterns: BTreeMap<Letter, usize>,
    closings: BTreeMap<Letter, usize>,
    with_tail: usize,
    tenth_paid_nothing: usize,
    tail_of_a_mean: usize,
    tail_of_few_half_units: usize,
    negative_paid: usize,
    tabular_discounts: usize,
    highest_amounts: usize,
    gross_in_age_rows_over_ten_years: usize,
    sums_of_no_year: usize,
    sums_of_many_years: usize,
    sums_below_zero: usize,
}

impl Variety {
    fn of(stream: &[u8], book: &mut Book) -> Variety {
        let mut variety = Variety::default();
        for line in records(stream) {
            let request = read(line);
            let answer = book.answer(line);
            if !matches!(answer, Answer::No(_)) {
                variety.count(&request.expect("accepted"), book);
            }
        }
        variety
    }

    fn count(&mut self, request: &Request, book: &Book) {
        match request {
            Request::Pattern { letter, .. } => {
                *self.patterns.entry(*letter).or_default() += 1;
                let kept = book.lines[letter].patterns.last().expect("just given");
                let ages = letter.kind().ages();
                let unpaid = kept.pattern.unpaid(ages);
                let all_paid_something = (1..=ages).all(|age| kept.pattern.payment(age) > 0);
                self.with_tail += usize::from(unpaid > 0 && all_paid_something);
                if ages == 10 && unpaid > 0 && kept.pattern.payment(10) == 0 {
                    let eleventh = kept.pattern.payment(11);
                    self.tenth_paid_nothing += 1;
                    self.tail_of_a_mean += usize::from(eleventh > 0);
                    self.tail_of_few_half_units += usize::from((1..6).contains(&eleventh));
                }
            }
            Request::Year { letter, rows, .. } => {
                *self.closings.entry(*letter).or_default() += 1;
                for row in rows {
                    self.negative_paid += usize::from(row.paid < 0);
                    self.tabular_discounts += usize::from(row.tabular_discount > 0);
                    self.highest_amounts += usize::from(row.unpaid == HIGHEST_AMOUNT);
                }
                let ages = letter.kind().ages();
                let all_gross = rows[..ages].iter().filter(|row| row.gross() > 0).count();
                self.gross_in_age_rows_over_ten_years += usize::from(all_gross >= 9);
            }
            Request::Sum { letter } => self.count_sum(&book.lines[letter]),
            Request::Line { .. }
            | Request::Rate { .. }
            | Request::RateOfRegister { .. }
            | Request::MonthlyRate { .. } => {}
        }
    }

    fn count_sum(&mut self, line: &DeclaredLine) {
        let Totals {
            closed_years,
            paid,
            losses,
        } = line.totals;
        self.sums_of_no_year += usize::from(closed_years == 0);
        self.sums_of_many_years += usize::from(closed_years > 5);
        self.sums_below_zero += usize::from(paid < 0 || losses < 0);
    }
}

#[test]
fn the_accepted_records_vary() {
    for seed in SEEDS {
        let mut book = Book::default();
        let variety = Variety::of(&random_stream(seed, RECORDS), &mut book);
        let patterns: usize = variety.patterns.values().sum();
        assert!(variety.with_tail * 9 > patterns * 4, "seed {seed}");
        let without_mean = variety.tenth_paid_nothing - variety.tail_of_a_mean;
        assert!(variety.tail_of_a_mean > 12 && without_mean > 5);
        assert!(variety.tail_of_few_half_units > 2, "seed {seed}");
        let ten_year = |letter: &&Letter| letter.kind() == LineKind::TenYear;
        let long_lines = variety.patterns.keys().filter(ten_year);
        assert!(
            long_lines
                .filter(|letter| variety.patterns[letter] > 10)
                .count()
                > 1
        );
        assert!(variety.closings.values().any(|closings| *closings > 15));
        assert!(variety.negative_paid > 50 && variety.tabular_discounts > 50);
        assert!(variety.highest_amounts > 20);
        assert!(variety.gross_in_age_rows_over_ten_years > 10, "seed {seed}");
        assert!(variety.sums_of_no_year > 10 && variety.sums_of_many_years > 40);
        assert!(variety.sums_below_zero > 4, "seed {seed}");
        let mut rates: Vec<u64> = book.rates.values().copied().collect();
        rates.sort_unstable();
        rates.dedup();
        assert!(rates.len() > 40);
        assert!(rates[0] < 100 && rates[rates.len() - 1] > HIGHEST_RATE - 100);
    }
}

/// Is a line a SUM, or nearly one?
fn is_like_a_sum(line: &[u8]) -> bool {
    line.to_ascii_uppercase().trim_ascii().starts_with(b"SU")
}

/// "SUM has two fields and meets questions 1 to 4 and 8." It gets each of these
/// numbers in every stream.
#[test]
fn sums_are_refused_with_each_of_their_numbers() {
    for seed in SEEDS {
        let stream = random_stream(seed, RECORDS);
        let answers = records(&stream).into_iter().zip(output(&stream));
        let refused =
            answers.filter(|(line, answer)| is_like_a_sum(line) && answer.starts_with("NO"));
        let counts = counts_of(refused.map(|(_, answer)| answer));
        let numbers: Vec<&str> = counts.keys().map(String::as_str).collect();
        assert_eq!(numbers, ["NO 1", "NO 2", "NO 3", "NO 4", "NO 8"]);
        assert!(counts.values().all(|count| *count > 2), "{counts:?}");
    }
}

/// Any bytes at all get an answer for each line.
#[test]
fn random_bytes_are_answered() {
    let mut random = Random::new(2024);
    for _ in 0..200 {
        let length = random.below(3_000);
        let common = b"\n\n\t\t\tLINERATEPATTYEARSUMMIDTAJ0123456789-";
        let mut input = Vec::new();
        for _ in 0..length {
            let byte = match random.below(8) {
                0 => random.below(256) as u8,
                _ => random.choice(common),
            };
            input.push(byte);
        }
        let lines = output(&input);
        assert_eq!(lines.len(), records(&input).len() + 1);
    }
}
