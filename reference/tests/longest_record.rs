//! "No accepted record can have more than 418 bytes, and one can have as many.
//! Make 418 the limit in question 1. A longer line that got a later number now
//! gets 1, and every line that was accepted still is."

mod common;

use common::stored;
use reference::answer::Answer;
use reference::book::Book;
use reference::kinds::{Letter, NumberKind};
use reference::question::Question;
use reference::random::Random;
use reference::record::{line_numbers, monthly_rate_numbers, pattern_numbers, rate_numbers};
use reference::record::{read, read_within, short_rate_numbers, year_numbers, LONGEST_LINE};
use reference::run::records;
use reference::stored_input::NAMES;
use reference::stream::random_stream;

/// "Has the line at most 1,024 bytes?", before "Make 418 the limit in question 1."
const EARLIER_LIMIT: usize = 1_024;

/// A kind of record: how it begins, and the kinds of its numbers.
type Kind = (String, Vec<NumberKind>);

/// Every kind of record, for every letter.
fn kinds() -> Vec<Kind> {
    let rates = [rate_numbers(), short_rate_numbers(), monthly_rate_numbers()];
    let words = ["RATE", "RATE", "MIDT"].map(str::to_string);
    let mut kinds: Vec<Kind> = words.into_iter().zip(rates).collect();
    for letter in Letter::all() {
        let start = |word: &str| format!("{word}\t{}", letter.character());
        kinds.extend([
            (start("LINE"), line_numbers()),
            (start("PATT"), pattern_numbers(letter)),
            (start("YEAR"), year_numbers(letter)),
            (start("SUM"), Vec::new()),
        ]);
    }
    kinds
}

/// The widest number within the limits: one of them, since a number further
/// from 0 has as many digits or more.
fn widest_number(kind: NumberKind) -> String {
    let [lowest, highest] = [kind.lowest(), kind.highest()].map(|limit| limit.to_string());
    if lowest.len() > highest.len() {
        lowest
    } else {
        highest
    }
}

fn widest_record((start, numbers): &Kind) -> Vec<u8> {
    let mut fields = vec![start.clone()];
    fields.extend(numbers.iter().map(|kind| widest_number(*kind)));
    fields.join("\t").into_bytes()
}

#[test]
fn the_widest_record_of_each_kind() {
    let mut lengths: Vec<usize> = Vec::new();
    for kind in kinds() {
        let record = widest_record(&kind);
        assert!(read(&record).is_ok(), "{kind:?}");
        lengths.push(record.len());
    }
    assert_eq!(lengths.iter().max(), Some(&LONGEST_LINE));
    lengths.sort_unstable();
    lengths.dedup();
    // SUM, short RATE, MIDT, LINE; PATT and YEAR of a two-year line; PATT of a
    // ten-year line, RATE and YEAR of a ten-year line.
    assert_eq!(lengths, [5, 9, 17, 19, 59, 122, 251, 309, 418]);
}

/// A number of one digit more is past its limits, so no other record is wider.
#[test]
fn no_number_within_its_limits_is_wider() {
    for kind in kinds().into_iter().flat_map(|(_, numbers)| numbers) {
        let digits = |number: i128| number.unsigned_abs().to_string().len() as u32;
        assert!(10_i128.pow(digits(kind.highest())) > kind.highest());
        assert!(-10_i128.pow(digits(kind.lowest())) < kind.lowest());
    }
}

/// The record with a tab at its end, and with a digit more in each of its numbers.
fn with_one_byte_more(kind: &Kind) -> Vec<Vec<u8>> {
    let record = widest_record(kind);
    let tabs = (0..record.len()).filter(|place| record[*place] == b'\t');
    let fields_before = kind.0.split('\t').count();
    let number_ends = tabs.chain([record.len()]).skip(fields_before);
    let with_digit = number_ends.map(|end| [&record[..end], b"0", &record[end..]].concat());
    with_digit.chain([[&record[..], b"\t"].concat()]).collect()
}

#[test]
fn one_byte_more_than_the_widest_record_is_refused() {
    for line in kinds().iter().flat_map(with_one_byte_more) {
        let question = read(&line).expect_err("one byte too much");
        let is_long = line.len() > LONGEST_LINE;
        assert_eq!(question == Question::LineLength, is_long);
        assert!(read_within(&line, EARLIER_LIMIT).is_err());
    }
}

/// What two books, with either limit, answer to the lines of an input: the
/// counts of lines that were and are accepted, and that get a 1 anew.
fn compare(input: &[u8]) -> (usize, usize) {
    let [mut book, mut earlier_book] = [Book::default(), Book::default()];
    let (mut accepted, mut refused_anew) = (0, 0);
    for line in records(input) {
        let answer = book.answer(line);
        let earlier = earlier_book.answer_request(read_within(line, EARLIER_LIMIT));
        if line.len() <= LONGEST_LINE {
            assert_eq!(answer, earlier);
        } else {
            assert_eq!(answer, Answer::No(Question::LineLength));
            assert!(matches!(earlier, Answer::No(_)));
        }
        accepted += usize::from(!matches!(answer, Answer::No(_)));
        refused_anew += usize::from(answer != earlier);
    }
    assert_eq!(book, earlier_book);
    (accepted, refused_anew)
}

#[test]
fn the_two_limits_accept_the_same_lines_of_random_streams() {
    for seed in 500..540 {
        let (accepted, refused_anew) = compare(&random_stream(seed, 1_500));
        assert!(accepted > 500 && refused_anew > 10, "seed {seed}");
    }
}

#[test]
fn the_two_limits_accept_the_same_lines_of_stored_inputs() {
    for name in NAMES {
        compare(&stored(name, "stdin"));
    }
}

/// A byte is put in, which is done most often, taken out or changed.
fn change(random: &mut Random, line: &mut Vec<u8>) {
    let place = random.place(line.len());
    let byte = random.choice(b"\t0123456789-5x");
    match random.below(4) {
        0 => line[place] = byte,
        1 => drop(line.remove(place)),
        _ => line.insert(place, byte),
    }
}

#[test]
fn the_two_limits_accept_the_same_changed_records() {
    let mut random = Random::new(418);
    let wide: Vec<Vec<u8>> = kinds().iter().map(widest_record).collect();
    for _ in 0..20_000 {
        let mut line = random.choice(&wide);
        (0..random.below(4)).for_each(|_| change(&mut random, &mut line));
        compare(&line);
    }
}
