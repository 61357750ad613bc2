//! "Five misreadings of 000 must be caught": each gives another figure than
//! document 01's rules.

mod common;

use common::{answer, book_after, flat_pattern, payments, rate, repeated, worked_back};
use reference::factor::{half_year_factor, kept_factors, published, Factors};
use reference::kinds::LineKind;
use reference::pattern::Pattern;
use reference::reserve::Row;

/// Cumulative ratios of exhibit 11, whose tail is longer than its cap.
const RATIOS: [u64; 10] = [
    8_333_333, 25_000_000, 40_000_000, 52_173_913, 63_106_796, 72_916_667, 81_250_000, 85_714_286,
    88_709_677, 90_090_090,
];

fn pattern() -> Pattern {
    Pattern::new(LineKind::TenYear, &RATIOS)
}

#[test]
fn worked_back_as_given_the_payments_give_our_factors() {
    let kept = kept_factors(&pattern(), 700);
    let again = worked_back(&payments(&pattern()), half_year_factor(700), 700);
    assert_eq!(kept, again);
    assert_eq!(published(kept[0]), 778_022);
    assert_eq!(published(kept[9]), 800_000);
}

#[test]
fn reading_the_oldest_year_as_age_1_in_a_pattern() {
    let mut oldest_first = payments(&pattern());
    oldest_first[..10].reverse();
    let misread = worked_back(&oldest_first, half_year_factor(700), 700);
    assert_eq!(published(misread[0]), 677_949);
    let book = book_after(&["LINE J 0", &rate(2015, 700)]);
    let read = answer(&mut book.clone(), "PATT J 2015 50 100 90 100");
    assert!(read.starts_with("FACT J 2015 "));
    let oldest_first = answer(&mut book.clone(), "PATT J 2015 90 100 50 100");
    assert_eq!(oldest_first, "NO 12");
}

/// A row of 1,000 read as age 1 or as age 2.
#[test]
fn reading_the_oldest_year_as_age_1_in_a_year() {
    let book = book_after(&[
        "LINE J 0",
        &rate(2014, 1500),
        &rate(2015, 1500),
        "PATT J 2014 50 100 90 100",
        "PATT J 2015 50 100 90 100",
    ]);
    let read = answer(&mut book.clone(), "YEAR J 2015 0 1000 0 0 0 0 0 0 0");
    let oldest_first = answer(&mut book.clone(), "YEAR J 2015 0 0 0 0 1000 0 0 0 0");
    assert_eq!(read, "TAX J 2015 0 0 898 898");
    assert_eq!(oldest_first, "TAX J 2015 0 0 872 872");
}

#[test]
fn discounting_a_payment_by_whole_years() {
    let whole_year = 10_000_000_000 * 10_000 / 10_700;
    let misread = worked_back(&payments(&pattern()), whole_year, 700);
    assert_eq!(published(misread[0]), 752_143);
    assert_eq!(published(kept_factors(&pattern(), 700)[0]), 778_022);
}

/// What the cap leaves over would be paid at age 17.
#[test]
fn letting_age_16_obey_the_cap() {
    let mut capped = payments(&pattern());
    let tenth_payment = capped[9];
    assert!(capped[15] > tenth_payment);
    capped.push(capped[15] - tenth_payment);
    capped[15] = tenth_payment;
    let misread = worked_back(&capped, half_year_factor(700), 700);
    let kept = kept_factors(&pattern(), 700);
    assert_eq!(published(kept[14]), 966_736);
    assert_eq!(published(misread[14]), 932_517);
    assert_ne!(published(kept[0]), published(misread[0]));
}

/// Accident year 2014 keeps its rate of 2500 in 2015, whose own rate is 100.
#[test]
fn a_fresh_rate_for_an_old_accident_year() {
    let mut book = book_after(&[
        "LINE J 0",
        &rate(2014, 2500),
        "PATT J 2014 50 100 90 100",
        &rate(2015, 100),
        "PATT J 2015 50 100 90 100",
    ]);
    let tax = answer(&mut book, "YEAR J 2015 0 0 0 0 100000 0 0 0 0");
    assert_eq!(tax, "TAX J 2015 0 0 80498 80498");
    let pattern = Pattern::new(LineKind::TwoYear, &[50_000_000, 90_000_000]);
    let row = Row {
        paid: 0,
        unpaid: 100_000,
        tabular_discount: 0,
    };
    let discounted_at = |rate| {
        let factors = Factors::new(LineKind::TwoYear, &pattern, rate);
        row.discounted(published(factors.kept(2)))
    };
    assert_eq!(discounted_at(2500), 80_498);
    assert_eq!(discounted_at(100), 99_011);
}

/// P11: the cap is the unpaid as stated, 30, and not 27.
#[test]
fn multiplying_the_side_of_the_cap_too() {
    let row = Row {
        paid: 0,
        unpaid: 30,
        tabular_discount: 10,
    };
    let misread = (row.unpaid * 900_000 + 500_000) / 1_000_000;
    assert_eq!(row.discounted(900_000), 30);
    assert_eq!(misread, 27);
}

/// The cap of a row in a whole year end.
#[test]
fn multiplying_the_side_of_the_cap_too_in_a_year_end() {
    let mut book = book_after(&[
        "LINE A 0",
        &rate(2015, 2500),
        &flat_pattern('A', 2015, "0 1"),
    ]);
    let others = repeated("0", 30);
    let tax = answer(&mut book, &format!("YEAR A 2015 0 100 9999999900 {others}"));
    assert_eq!(tax, "TAX A 2015 0 0 100 100");
}
