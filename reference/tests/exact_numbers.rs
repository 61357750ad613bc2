//! The whole numbers of any size and the exact ratios themselves.

use std::cmp::Ordering;

use reference::exact::{ExactRatio, Natural};
use reference::kinds::LineKind;
use reference::pattern::Pattern;
use reference::random::Random;

/// A random number of at most so many bits.
fn random_number(random: &mut Random, bits: u32) -> u128 {
    let wide = u128::from(random.draw()) << 64 | u128::from(random.draw());
    wide >> (128 - random.between(1, u64::from(bits)))
}

#[test]
fn small_sums_products_and_orders_are_those_of_the_machine() {
    let mut random = Random::new(1);
    for _ in 0..20_000 {
        let (first, second) = (
            random_number(&mut random, 64),
            random_number(&mut random, 64),
        );
        let (left, right) = (Natural::new(first), Natural::new(second));
        assert_eq!(left.plus(&right), Natural::new(first + second));
        assert_eq!(left.times(&right), Natural::new(first * second));
        assert_eq!(left.cmp(&right), first.cmp(&second));
    }
}

#[test]
fn large_squares_are_those_of_sums() {
    let mut random = Random::new(2);
    for _ in 0..2_000 {
        let first = Natural::new(random_number(&mut random, 128))
            .squared()
            .squared();
        let second = Natural::new(random_number(&mut random, 128)).squared();
        let product = first.times(&second);
        let twice = product.plus(&product);
        let expected = first.squared().plus(&twice).plus(&second.squared());
        let sum = first.plus(&second);
        assert_eq!(sum.squared(), expected);
        assert_eq!(product, second.times(&first));
        assert!(first <= sum && product <= expected);
    }
}

#[test]
fn zero_is_the_smallest() {
    let (zero, one) = (Natural::new(0), Natural::new(1));
    assert_eq!(zero.plus(&zero), zero);
    assert_eq!(one.times(&zero), zero);
    assert_eq!(one.plus(&zero), one);
    assert!(zero < one);
}

/// With rate 0 nothing is discounted, and every exact ratio is 1.
#[test]
fn with_rate_0_the_exact_ratio_is_1() {
    let ratios = [1, 2, 3, 5, 8, 13, 21, 34, 55, 89].map(|millions| millions * 1_000_000);
    let pattern = Pattern::new(LineKind::TenYear, &ratios);
    for age in 1..=10 {
        let exact = ExactRatio::at_age(&pattern, 0, age).expect("unpaid above 0");
        assert_eq!(exact.compare(7, 7), Ordering::Equal);
        assert_eq!(exact.compare(6, 7), Ordering::Less);
        assert_eq!(exact.compare(8, 7), Ordering::Greater);
    }
    assert!(ExactRatio::at_age(&pattern, 0, 16).is_none());
}

/// With rate 2100 a year's discount is 100/121 and half a year's 10/11, so the
/// exact ratios of the sample run are fractions.
#[test]
fn with_rate_2100_the_exact_ratio_is_a_fraction() {
    let pattern = Pattern::new(LineKind::TwoYear, &[50_000_000, 90_000_000]);
    let at_age = |age| ExactRatio::at_age(&pattern, 2100, age).expect("unpaid above 0");
    // Age 3: 10/11. Age 2: half of 10/11 and half of 10/11 × 100/121.
    assert_eq!(at_age(3).compare(10, 11), Ordering::Equal);
    assert_eq!(at_age(2).compare(1_105, 1_331), Ordering::Equal);
    // Age 1: 4/5 of 10/11 and 1/5 of 1,105/1,331 × 100/121.
    let numerator = 4 * 10 * 1_331 * 11 + 1_105 * 100;
    assert_eq!(
        at_age(1).compare(numerator, 5 * 1_331 * 121),
        Ordering::Equal
    );
    let composite = ExactRatio::composite(LineKind::TwoYear, &pattern, 2100);
    let composite = composite.expect("unpaid above 0");
    assert_eq!(composite.compare(10, 11), Ordering::Equal);
}

/// P9 with rate 2100: ages 11 to 15 have 36, 32, 28, 24 and 20 unpaid.
#[test]
fn the_exact_composite_is_the_unpaid_weighted_mean() {
    let ratios = [0, 0, 0, 0, 0, 0, 0, 0, 78_000_000, 80_000_000];
    let pattern = Pattern::new(LineKind::TenYear, &ratios);
    let composite = ExactRatio::composite(LineKind::TenYear, &pattern, 2100);
    // Discounted with powers of 100/121, all times 121^4 and without 10/11:
    // 4 is paid in 4 + 3 + 2 + 1 years' places, 20 in one of each age.
    let power = |exponent: u32| 100_u128.pow(exponent) * 121_u128.pow(4 - exponent);
    let fours = 4 * (4 * power(0) + 3 * power(1) + 2 * power(2) + power(3));
    let twenties: u128 = (0..5).map(|years| 20 * power(years)).sum();
    let numerator = 10 * (fours + twenties);
    let denominator = 11 * 121_u128.pow(4) * (36 + 32 + 28 + 24 + 20);
    let order = composite
        .expect("unpaid above 0")
        .compare(numerator, denominator);
    assert_eq!(order, Ordering::Equal);
}
