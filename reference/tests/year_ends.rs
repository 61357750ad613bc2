//! Lines closed over many years: unequal rates, patterns that drop out, rows
//! of the accident year's own pattern.

mod common;

use common::{answer, book_after, flat_pattern, rate, repeated};
use reference::book::Book;
use reference::factor::published;
use reference::kinds::Letter;

fn letter(byte: u8) -> Letter {
    Letter::covered(&[byte]).expect("a covered letter")
}

/// The rate of a year in these tests: no two years have the same.
fn rate_of(year: u64) -> u64 {
    2_500 - 150 * (year - 2000)
}

/// A line with the patterns of the years from 2001, each with its own rate and
/// its own payments.
fn book_with_patterns(byte: u8, last_year: u64) -> Book {
    let name = char::from(byte);
    let mut book = book_after(&[&format!("LINE {name} 0")]);
    for year in 2001..=last_year {
        answer(&mut book, &rate(year, rate_of(year)));
        let pattern = flat_pattern(name, year, &format!("{} 100", year - 1990));
        assert!(answer(&mut book, &pattern).starts_with("FACT"));
    }
    book
}

/// Row of age a in year Y takes the pattern of accident year Y - a + 1, with
/// that year's rate.
#[test]
fn each_row_takes_the_pattern_of_its_own_accident_year() {
    let book = book_with_patterns(b'A', 2012);
    for age in 1..=10_usize {
        let mut rows = ["0 0 0"; 11];
        rows[age - 1] = "0 1000000 0";
        let tax = answer(
            &mut book.clone(),
            &format!("YEAR A 2012 {}", rows.join(" ")),
        );
        let accident_year = 2012 + 1 - age as u64;
        let kept = book.lines[&letter(b'A')].pattern(accident_year);
        let factor = published(kept.expect("kept").factors.kept(age));
        assert_eq!(tax, format!("TAX A 2012 0 0 {factor} {factor}"));
        let own = book.lines[&letter(b'A')].pattern(2012);
        let of_last_pattern = published(own.expect("kept").factors.kept(age));
        assert_eq!(factor == of_last_pattern, age == 1);
    }
}

/// The prior row takes the composite of accident year Y.
#[test]
fn the_prior_row_takes_the_composite_of_the_year_itself() {
    let mut book = book_with_patterns(b'A', 2012);
    let tax = answer(
        &mut book,
        &format!("YEAR A 2012 {} 0 1000000 0", repeated("0", 30)),
    );
    let kept = book.lines[&letter(b'A')].pattern(2012);
    let composite = published(kept.expect("kept").factors.composite());
    assert_eq!(tax, format!("TAX A 2012 0 0 {composite} {composite}"));
}

#[test]
fn an_eleventh_pattern_drops_the_first() {
    let years_kept = |byte: u8, last_year: u64| -> Vec<u64> {
        let book = book_with_patterns(byte, last_year);
        let patterns = &book.lines[&letter(byte)].patterns;
        patterns.iter().map(|kept| kept.accident_year).collect()
    };
    assert_eq!(years_kept(b'R', 2010), (2001..=2010).collect::<Vec<_>>());
    assert_eq!(years_kept(b'R', 2011), (2002..=2011).collect::<Vec<_>>());
    assert_eq!(years_kept(b'R', 2013), (2004..=2013).collect::<Vec<_>>());
    assert_eq!(years_kept(b'T', 2002), [2001, 2002]);
    assert_eq!(years_kept(b'T', 2003), [2002, 2003]);
}

/// With nine patterns the tenth age row has none; with ten and eleven it has.
#[test]
fn the_tenth_age_row_needs_ten_patterns() {
    let mut rows = ["0 0 0"; 11];
    rows[9] = "0 5 0";
    for (last_year, start) in [(2009, "NO 13"), (2010, "TAX"), (2011, "TAX")] {
        let record = format!("YEAR C {last_year} {}", rows.join(" "));
        let answer = answer(&mut book_with_patterns(b'C', last_year), &record);
        assert!(answer.starts_with(start), "{answer}");
    }
}

/// A row with gross 0 may have a paid without a kept pattern.
#[test]
fn a_paid_alone_needs_no_pattern() {
    let mut book = book_with_patterns(b'A', 2001);
    let tax = answer(
        &mut book,
        &format!("YEAR A 2001 {}", repeated("-3 0 0", 11)),
    );
    assert_eq!(tax, "TAX A 2001 -33 0 0 -33");
}

/// Two years of one line, in which another rate, another opening or another
/// order of rows would show.
#[test]
fn a_line_closed_over_years_with_unequal_rates() {
    let records = [
        "LINE S 500",
        &rate(2014, 2500),
        &rate(2015, 100),
        &rate(2016, 0),
        "PATT S 2014 1 3 2 3",
        "PATT S 2015 10 100 30 100",
        "YEAR S 2015 10 1000000 0 20 1000000 5 -5 1000000 1000000",
        "PATT S 2016 0 1 1 2",
        "YEAR S 2016 1 1000 1000 2 2000000 0 3 0 1000000",
    ];
    let expected = [
        "LINE S 500",
        "RATE 2014 2500",
        "RATE 2015 100",
        "RATE 2016 0",
        "FACT S 2014 769207 804984 894427",
        "FACT S 2015 983581 990111 995037",
        "TAX S 2015 25 500 2788569 2788094",
        "FACT S 2016 1000000 1000000 1000000",
        "TAX S 2016 6 2788569 1981222 -807341",
        "DONE 9 0",
    ];
    assert_eq!(common::output_of(&records), expected);
}

#[test]
fn a_whole_book_of_fifteen_lines_and_113_years_is_accepted() {
    let mut book = Book::default();
    let mut records = 0;
    for year in 1987..=2099 {
        answer(&mut book, &rate(year, (year * 37) % 2_501));
        records += 1;
    }
    for letter in Letter::all() {
        let name = letter.character();
        answer(&mut book, &format!("LINE {name} 1000"));
        records += 1;
        for year in 1987..=2099_u64 {
            answer(
                &mut book,
                &flat_pattern(name, year, &format!("{year} 2100")),
            );
            let rows = letter.kind().ages();
            let closing = format!("{} 1 9 9", repeated("1 0 0", rows));
            answer(&mut book, &format!("YEAR {name} {year} {closing}"));
            records += 2;
        }
    }
    assert_eq!((book.accepted, book.refused), (records, 0));
    assert_eq!((book.rates.len(), book.lines.len()), (113, 15));
}
