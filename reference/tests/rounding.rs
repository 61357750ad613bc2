//! Halves and the numbers next to them, wherever document 01 rounds.

mod common;

use common::{answer, book_after, discounted, rate, ratio};
use reference::factor::published;
use reference::rate::accident_year_rate;

/// "paid × 100,000,000 / incurred, rounded half up"
#[test]
fn a_cumulative_ratio_rounds_half_up() {
    assert_eq!(ratio(1, 200_000_000), 1);
    assert_eq!(ratio(3, 200_000_000), 2);
    assert_eq!(ratio(1, 200_000_001), 0);
    assert_eq!(ratio(1, 199_999_999), 1);
    assert_eq!(ratio(199_999_999, 200_000_000), 100_000_000);
    assert_eq!(ratio(9_999_999_949, 10_000_000_000), 99_999_999);
    assert_eq!(ratio(9_999_999_950, 10_000_000_000), 100_000_000);
    assert_eq!(ratio(50, 10_000_000_000), 1);
    assert_eq!(ratio(49, 10_000_000_000), 0);
    assert_eq!(ratio(0, 1), 0);
    assert_eq!(ratio(1, 1), 100_000_000);
}

/// Question 12 looks at the rounded ratios.
#[test]
fn a_fall_that_rounds_away_is_none() {
    let book = book_after(&["LINE J 0", &rate(2015, 700)]);
    let falls_within_rounding = "PATT J 2015 3333333349 10000000000 1 3";
    let factors = answer(&mut book.clone(), falls_within_rounding);
    assert!(factors.starts_with("FACT J 2015 "), "{factors}");
    let falls_by_one = "PATT J 2015 3333333350 10000000000 1 3";
    assert_eq!(answer(&mut book.clone(), falls_by_one), "NO 12");
}

/// "(kept + 5000) / 10000 rounded down"
#[test]
fn a_published_factor_rounds_half_up() {
    assert_eq!(published(8_644_964_999), 864_496);
    assert_eq!(published(8_644_965_000), 864_497);
    assert_eq!(published(8_644_974_999), 864_497);
    assert_eq!(published(9_999_995_000), 1_000_000);
    assert_eq!(published(10_000_000_000), 1_000_000);
}

/// "(gross × published + 500,000) / 1,000,000 rounded down"
#[test]
fn a_discounted_row_rounds_half_up() {
    assert_eq!(discounted(1, 0, 500_000), 1);
    assert_eq!(discounted(1, 0, 499_999), 0);
    assert_eq!(discounted(500_000, 0, 900_001), 450_001);
    assert_eq!(discounted(499_999, 0, 900_001), 450_000);
    assert_eq!(discounted(500_000, 1_000_000, 900_001), 500_000);
    assert_eq!(
        discounted(10_000_000_000, 10_000_000_000, 499_999),
        9_999_980_000
    );
    assert_eq!(discounted(0, 10_000_000_000, 900_000), 0);
}

/// "the sum of sixty monthly rates plus 30, divided by 60, rounded down"
#[test]
fn a_rate_rounds_half_up() {
    let with_first = |first: u64| {
        let mut rates = [100; 60];
        rates[0] = first;
        accident_year_rate(&rates)
    };
    assert_eq!(with_first(129), 100);
    assert_eq!(with_first(130), 101);
    assert_eq!(with_first(69), 99);
    assert_eq!(with_first(70), 100);
}
