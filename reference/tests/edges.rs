//! Limits and one past them, lines and bytes of every sort.

mod common;

use common::{answer, answer_to_bytes, book_after, flat_pattern, line, output, output_of};
use common::{rate, repeated};
use reference::book::Book;
use reference::kinds::Letter;

/// The numbers of a YEAR of a two-year line with one of its nine replaced.
fn year_with(place: usize, number: &str) -> String {
    let mut numbers = ["0"; 9];
    numbers[place] = number;
    format!("YEAR J 2015 {}", numbers.join(" "))
}

/// A two-year line of which accident years 2014 and 2015 have patterns and no
/// year is closed.
fn two_year_book() -> Book {
    book_after(&[
        "LINE J 0",
        &rate(2014, 2100),
        &rate(2015, 2100),
        "PATT J 2014 50 100 90 100",
        "PATT J 2015 50 100 90 100",
    ])
}

#[test]
fn rates_2500_and_2501() {
    let mut book = Book::default();
    assert_eq!(answer(&mut book, &rate(1990, 2501)), "NO 6");
    let one_past = format!("RATE 1990 {} 2501", repeated("0", 59));
    assert_eq!(answer(&mut book, &one_past), "NO 6");
    let at_limit = format!("RATE 1990 {} 2500", repeated("0", 59));
    assert_eq!(answer(&mut book, &at_limit), "RATE 1990 42");
    assert_eq!(answer(&mut book, &rate(1991, 2500)), "RATE 1991 2500");
    assert_eq!(answer(&mut book, &rate(1992, 0)), "RATE 1992 0");
    assert_eq!(answer(&mut book, &rate(1993, 1)), "RATE 1993 1");
}

#[test]
fn years_1986_1987_2099_and_2100() {
    let mut book = book_after(&["LINE J 0", "LINE K 0"]);
    for year in [1986, 2100, 0, 9999] {
        assert_eq!(answer(&mut book, &rate(year, 5)), "NO 6");
        assert_eq!(answer(&mut book, &flat_pattern('J', year, "1 2")), "NO 6");
        let close = format!("YEAR J {year} {}", repeated("0", 9));
        assert_eq!(answer(&mut book, &close), "NO 6");
    }
    for (letter, year) in [('J', 1987), ('K', 2099)] {
        assert_eq!(answer(&mut book, &rate(year, 0)), format!("RATE {year} 0"));
        let factors = answer(&mut book, &flat_pattern(letter, year, "1 2"));
        let expected = format!("FACT {letter} {year} 1000000 1000000 1000000");
        assert_eq!(factors, expected);
        let close = format!("YEAR {letter} {year} {}", repeated("0", 9));
        let tax = answer(&mut book, &close);
        assert_eq!(tax, format!("TAX {letter} {year} 0 0 0 0"));
    }
    assert_eq!(answer(&mut book, &flat_pattern('K', 2100, "1 2")), "NO 6");
}

#[test]
fn openings_at_their_limits() {
    let mut book = Book::default();
    assert_eq!(answer(&mut book, "LINE A 100000000001"), "NO 6");
    let highest = "LINE A 100000000000";
    assert_eq!(answer(&mut book, highest), highest);
    assert_eq!(answer(&mut book, "LINE B 0"), "LINE B 0");
    assert_eq!(answer(&mut book, "LINE C -1"), "NO 5");
}

#[test]
fn every_amount_of_a_pattern_at_its_limits() {
    let book = book_after(&["LINE J 0", &rate(2015, 0)]);
    for place in 0..4 {
        let mut numbers = ["10000000000"; 4];
        let at_limit = format!("PATT J 2015 {}", numbers.join(" "));
        let expected = "FACT J 2015 1000000 1000000 1000000";
        assert_eq!(answer(&mut book.clone(), &at_limit), expected);
        numbers[place] = "10000000001";
        let past = format!("PATT J 2015 {}", numbers.join(" "));
        assert_eq!(answer(&mut book.clone(), &past), "NO 6");
    }
}

#[test]
fn every_amount_of_a_year_at_its_limits() {
    let book = two_year_book();
    for place in 0..9 {
        let at_limit = answer(&mut book.clone(), &year_with(place, "10000000000"));
        assert!(at_limit.starts_with("TAX J 2015 "), "{at_limit}");
        let past = year_with(place, "10000000001");
        assert_eq!(answer(&mut book.clone(), &past), "NO 6");
    }
}

#[test]
fn a_minus_is_allowed_before_a_nonzero_paid_in_a_year_only() {
    let book = two_year_book();
    for place in 0..9 {
        let is_paid = place % 3 == 0;
        let lowest = answer(&mut book.clone(), &year_with(place, "-10000000000"));
        let expected = "TAX J 2015 -10000000000 0 0 -10000000000";
        assert_eq!(lowest, if is_paid { expected } else { "NO 5" });
        let past = answer(&mut book.clone(), &year_with(place, "-10000000001"));
        assert_eq!(past, if is_paid { "NO 6" } else { "NO 5" });
        let zero = answer(&mut book.clone(), &year_with(place, "-0"));
        assert_eq!(zero, "NO 5");
    }
    let mut book = two_year_book();
    for record in [
        "PATT J -2016 1 2 1 2",
        "PATT J 2016 -5 10 5 10",
        "LINE K -5",
    ] {
        assert_eq!(answer(&mut book, record), "NO 5");
    }
    let negative_rate = format!("RATE 2016 {} -5", repeated("0", 59));
    assert_eq!(answer(&mut book, &negative_rate), "NO 5");
}

#[test]
fn badly_written_numbers() {
    let wrong = [
        "", "-", "00", "01", "007", "+5", "1.0", "1e3", "0x1", "5\r", "\r5", "--5", "1,000", "５",
        "-05", "5-",
    ];
    let book = two_year_book();
    for number in wrong {
        for place in 0..9 {
            let answer = answer(&mut book.clone(), &year_with(place, number));
            assert_eq!(answer, "NO 5", "{number} at {place}");
        }
        let opening = answer(&mut book.clone(), &format!("LINE K {number}"));
        assert_eq!(opening, "NO 5");
    }
}

#[test]
fn numbers_of_four_hundred_digits_are_well_written() {
    let mut book = two_year_book();
    let nines = "9".repeat(400);
    let one_and_zeros = format!("1{}", "0".repeat(399));
    for digits in [nines, one_and_zeros] {
        assert_eq!(answer(&mut book, &format!("LINE K {digits}")), "NO 6");
        let signed = format!("-{}", &digits[..380]);
        assert_eq!(answer(&mut book, &year_with(0, &signed)), "NO 6");
        assert_eq!(answer(&mut book, &year_with(1, &signed)), "NO 5");
    }
    let leading_zero = format!("LINE K 0{}", "1".repeat(399));
    assert_eq!(answer(&mut book, &leading_zero), "NO 5");
}

/// Numbers that would come back within limits if they were cut to 64 or 128
/// bits.
#[test]
fn numbers_past_the_ends_of_machine_words() {
    let mut book = Book::default();
    for number in [
        "18446744073709551615",
        "18446744073709551616",
        "18446744073709551621",
        "9223372036854775808",
        "340282366920938463463374607431768211455",
        "340282366920938463463374607431768211461",
        "115792089237316195423570985008687907853269984665640564039457584007913129639941",
    ] {
        assert_eq!(answer(&mut book, &format!("LINE A {number}")), "NO 6");
    }
}

#[test]
fn lines_as_long_as_allowed_and_longer() {
    for (length, number) in [
        (417, "NO 6"),
        (418, "NO 6"),
        (419, "NO 1"),
        (1_024, "NO 1"),
        (1_025, "NO 1"),
    ] {
        let mut long = line("LINE A ");
        long.resize(length, b'1');
        assert_eq!(output(&long), [number, "DONE 0 1"]);
        long.push(b'\n');
        assert_eq!(output(&long), [number, "DONE 0 1"]);
    }
    for byte in *b"x\t\r" {
        assert_eq!(output(&[byte; 418]), ["NO 2", "DONE 0 1"]);
        assert_eq!(output(&[byte; 419]), ["NO 1", "DONE 0 1"]);
    }
}

/// The whole line is skipped: what follows byte 418 is no record of its own.
#[test]
fn a_line_of_a_mebibyte_is_one_record() {
    let long = vec![b'\t'; 1 << 20];
    assert_eq!(output(&long), ["NO 1", "DONE 0 1"]);
    let mut input = line("LINE A 7");
    input.push(b'\n');
    input.extend(b"LINE\tB\t7".repeat(1 << 17));
    input.push(b'\n');
    input.extend(line("LINE C 7"));
    assert_eq!(output(&input), ["LINE A 7", "NO 1", "LINE C 7", "DONE 2 1"]);
}

#[test]
fn input_that_is_empty_or_ends_without_byte_10() {
    assert_eq!(output(b""), ["DONE 0 0"]);
    assert_eq!(output(b"\n"), ["NO 2", "DONE 0 1"]);
    assert_eq!(output(b"\n\n\n"), ["NO 2", "NO 2", "NO 2", "DONE 0 3"]);
    assert_eq!(output(b"LINE\tA\t1"), ["LINE A 1", "DONE 1 0"]);
    assert_eq!(output(b"LINE\tA\t1\n"), ["LINE A 1", "DONE 1 0"]);
    assert_eq!(output(b"LINE\tA\t1\n\n"), ["LINE A 1", "NO 2", "DONE 1 1"]);
    assert_eq!(output(b"\nLINE\tA\t1"), ["NO 2", "LINE A 1", "DONE 1 1"]);
}

#[test]
fn byte_13_is_a_byte_like_any_other() {
    assert_eq!(output(b"\r\n"), ["NO 2", "DONE 0 1"]);
    assert_eq!(output(b"LINE\tA\t1\r\n"), ["NO 5", "DONE 0 1"]);
    assert_eq!(output(b"LINE\r\tA\t1\n"), ["NO 2", "DONE 0 1"]);
    assert_eq!(output(b"LINE\tA\r\t1\n"), ["NO 3", "DONE 0 1"]);
}

#[test]
fn one_tab_parts_two_fields() {
    let records = [
        "LINE A",
        "LINE A ",
        "LINE  A 1",
        " LINE A 1",
        "LINE A 1 ",
        "LINE A  1",
    ];
    let expected = ["NO 4", "NO 5", "NO 3", "NO 2", "NO 4", "NO 4", "DONE 0 6"];
    assert_eq!(output_of(&records), expected);
    assert_eq!(output(b"LINE A 1\n"), ["NO 2", "DONE 0 1"]);
}

#[test]
fn each_of_the_bytes_0_to_255_as_a_line_as_a_letter_and_as_a_digit() {
    for byte in 0..=255_u8 {
        if byte == b'\n' {
            continue;
        }
        let mut book = Book::default();
        assert_eq!(answer_to_bytes(&mut book, &[byte]), "NO 2");
        let digit = answer_to_bytes(&mut book, &[b"LINE\tA\t1", [byte].as_slice()].concat());
        let expected = match byte {
            b'0'..=b'9' => format!("LINE A 1{}", char::from(byte)),
            b'\t' => "NO 4".to_string(),
            _ => "NO 5".to_string(),
        };
        assert_eq!(digit, expected, "byte {byte}");
        let mut book = Book::default();
        let with_letter = [b"LINE\t", [byte].as_slice(), b"\t1"].concat();
        let covered = b"ABCDEFGHRIJKLST".contains(&byte);
        let expected = format!("LINE {} 1", char::from(byte));
        let answer = answer_to_bytes(&mut book, &with_letter);
        assert_eq!(
            answer,
            if covered { &expected } else { "NO 3" },
            "byte {byte}"
        );
    }
    let all: Vec<u8> = (0..=255).collect();
    assert_eq!(output(&all), ["NO 2", "NO 2", "DONE 0 2"]);
    assert_eq!(Letter::all().len(), 15);
}

/// Line A is declared and no other.
#[test]
fn each_of_the_bytes_0_to_255_as_the_letter_of_a_sum_and_after_it() {
    let book = book_after(&["LINE A 7"]);
    for byte in (0..=255_u8).filter(|byte| *byte != b'\n') {
        let answer = |start: &[u8]| answer_to_bytes(&mut book.clone(), &[start, &[byte]].concat());
        let as_letter = match byte {
            b'A' => "SUM A 0 0 0",
            b'B'..=b'L' | b'R'..=b'T' => "NO 8",
            _ => "NO 3",
        };
        assert_eq!(answer(b"SUM\t"), as_letter, "byte {byte}");
        let is_tab = byte == b'\t';
        assert_eq!(answer(b"SUM\tA"), if is_tab { "NO 4" } else { "NO 3" });
        assert_eq!(answer(b"SUM"), if is_tab { "NO 3" } else { "NO 2" });
        assert_eq!(answer(b"SU"), if byte == b'M' { "NO 3" } else { "NO 2" });
    }
}

/// A byte as the last of a month and of a short RATE's year. The register has no
/// month.
#[test]
fn each_of_the_bytes_0_to_255_in_a_month_and_in_the_year_of_a_short_rate() {
    for byte in (0..=255_u8).filter(|byte| *byte != b'\n') {
        let answer = |start: &[u8], end: &[u8]| {
            answer_to_bytes(&mut Book::default(), &[start, &[byte], end].concat())
        };
        let month = char::from(byte);
        let in_month = match byte {
            b'0'..=b'2' => format!("MIDT 1990 1{month} 5"),
            b'3'..=b'9' => "NO 6".to_string(),
            b'\t' => "NO 4".to_string(),
            _ => "NO 5".to_string(),
        };
        assert_eq!(answer(b"MIDT\t1990\t1", b"\t5"), in_month, "byte {byte}");
        let in_year = match byte {
            b'0'..=b'9' => "NO 14",
            b'\t' => "NO 4",
            _ => "NO 5",
        };
        assert_eq!(answer(b"RATE\t199", b""), in_year, "byte {byte}");
        let is_word = byte == b'T';
        assert_eq!(answer(b"MID", b""), if is_word { "NO 4" } else { "NO 2" });
        let is_tab = byte == b'\t';
        assert_eq!(answer(b"MIDT", b""), if is_tab { "NO 4" } else { "NO 2" });
    }
}

/// The rate 0 discounts nothing, so paid, closing and loss reach both ends.
#[test]
fn paid_closing_and_loss_at_the_ends_of_their_range() {
    let mut book = book_after(&["LINE A 0"]);
    for year in 2001..=2012 {
        assert_eq!(answer(&mut book, &rate(year, 0)), format!("RATE {year} 0"));
    }
    for year in 2001..=2010 {
        let factors = answer(&mut book, &flat_pattern('A', year, "1 2"));
        assert_eq!(
            factors,
            format!("FACT A {year} {}", repeated("1000000", 11))
        );
    }
    let highest = repeated("10000000000 10000000000 0", 11);
    let tax = answer(&mut book, &format!("YEAR A 2010 {highest}"));
    assert_eq!(tax, "TAX A 2010 110000000000 0 110000000000 220000000000");
    answer(&mut book, &flat_pattern('A', 2011, "1 2"));
    let lowest = repeated("-10000000000 0 10000000000", 11);
    let tax = answer(&mut book, &format!("YEAR A 2011 {lowest}"));
    assert_eq!(tax, "TAX A 2011 -110000000000 110000000000 0 -220000000000");
    answer(&mut book, &flat_pattern('A', 2012, "1 2"));
    let nothing = answer(&mut book, &format!("YEAR A 2012 {}", repeated("0", 33)));
    assert_eq!(nothing, "TAX A 2012 0 0 0 0");
}

#[test]
fn the_first_opening_is_the_declared_one() {
    let mut book = book_after(&["LINE J 70", &rate(2015, 0), "PATT J 2015 50 100 90 100"]);
    let tax = answer(&mut book, "YEAR J 2015 5 30 0 0 0 0 1 2 0");
    assert_eq!(tax, "TAX J 2015 6 70 32 -32");
}

#[test]
fn either_count_stops_at_its_end() {
    let mut book = Book {
        accepted: u64::MAX - 1,
        refused: u64::MAX - 1,
        ..Book::default()
    };
    for record in ["LINE A 1", "LINE B 1", "LINE B 1", "LINE B 1"] {
        answer(&mut book, record);
    }
    assert_eq!((book.accepted, book.refused), (u64::MAX, u64::MAX));
}
