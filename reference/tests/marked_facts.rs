//! P1 to P13 of document 01.

mod common;

use common::{discounted, ratio};
use reference::factor::{half_year_factor, kept_factors};
use reference::kinds::LineKind;
use reference::pattern::{tail_cap, ten_year_tail, Pattern};
use reference::rate::accident_year_rate;

/// Sixty monthly rates with that sum.
fn rates_with_sum(sum: u64) -> Vec<u64> {
    let mut rates = vec![sum / 60; 60];
    rates[0] += sum % 60;
    rates
}

/// The tail by what is unpaid after age 10 and the payments at ages 8, 9 and
/// 10, all in millions of half units.
fn tail_in_millions(unpaid: u64, last_payments: [u64; 3]) -> [u64; 6] {
    let cap = tail_cap(last_payments.map(|payment| payment * 1_000_000));
    ten_year_tail(unpaid * 1_000_000, cap).map(|payment| payment / 1_000_000)
}

#[test]
fn p1_to_p3_half_year_factors() {
    assert_eq!(half_year_factor(0), 10_000_000_000);
    assert_eq!(half_year_factor(2100), 9_090_909_090);
    assert_eq!(half_year_factor(2500), 8_944_271_909);
}

#[test]
fn every_half_year_factor_is_the_largest_by_the_square_rule() {
    for rate in 0..=2500_u64 {
        let factor = u128::from(half_year_factor(rate));
        let square = |number: u128| number * number * u128::from(10_000 + rate);
        assert!(square(factor) <= 10_u128.pow(24));
        assert!(square(factor + 1) > 10_u128.pow(24));
    }
}

#[test]
fn p4_and_p5_rates() {
    assert_eq!(accident_year_rate(&rates_with_sum(8_850)), 148);
    assert_eq!(accident_year_rate(&rates_with_sum(8_849)), 147);
}

#[test]
fn p6_and_p7_ratios() {
    assert_eq!(ratio(1, 3), 33_333_333);
    assert_eq!(ratio(2, 3), 66_666_667);
}

#[test]
fn p8_to_p10_tails() {
    for earlier in [0, 4, 7] {
        let last_payments = [earlier, earlier, 4];
        assert_eq!(tail_in_millions(14, last_payments), [4, 4, 4, 2, 0, 0]);
        assert_eq!(tail_in_millions(40, last_payments), [4, 4, 4, 4, 4, 20]);
    }
    assert_eq!(tail_in_millions(10, [0, 0, 0]), [0, 0, 0, 0, 0, 10]);
}

#[test]
fn p11_and_p12_discounted_rows() {
    assert_eq!(discounted(30, 10, 900_000), 30);
    assert_eq!(discounted(10_000, 1_000, 850_000), 9_350);
}

#[test]
fn p13_kept_factors_of_the_run() {
    let pattern = Pattern::new(LineKind::TwoYear, &[ratio(50, 100), ratio(90, 100)]);
    let kept = kept_factors(&pattern, 2100);
    assert_eq!(kept[..2], [8_644_963_395, 8_302_028_549]);
}
