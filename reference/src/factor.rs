//! Half-year, kept, composite and published factors.

use crate::kinds::LineKind;
use crate::pattern::Pattern;

/// "For rate R, H is the largest whole number with H × H × (10000 + R) at most
/// 10 to the 24th." That is the whole square root of 10 to the 24th / (10000 + R).
pub fn half_year_factor(rate: u64) -> u64 {
    whole_square_root(10_u128.pow(24) / u128::from(10_000 + rate))
}

/// The largest whole number whose square is at most `square`, found by halving
/// the interval that holds it. `square` is at most 10 to the 20th.
fn whole_square_root(square: u128) -> u64 {
    let mut at_most = 0_u64;
    let mut above = 10_000_000_001_u64;
    while above - at_most > 1 {
        let middle = at_most + (above - at_most) / 2;
        if u128::from(middle) * u128::from(middle) <= square {
            at_most = middle;
        } else {
            above = middle;
        }
    }
    at_most
}

/// The factors of one pattern, in units of the tenth decimal.
#[derive(Clone, Debug, PartialEq, Eq)]
pub struct Factors {
    kept: Vec<u64>,
    composite: u64,
}

impl Factors {
    pub fn new(kind: LineKind, pattern: &Pattern, rate: u64) -> Factors {
        let kept = kept_factors(pattern, rate);
        let composite = match kind {
            LineKind::TenYear => ten_year_composite(pattern, &kept, half_year_factor(rate)),
            // "For a two-year line it is the factor of age 3."
            LineKind::TwoYear => kept[2],
        };
        Factors { kept, composite }
    }

    pub fn kept(&self, age: usize) -> u64 {
        self.kept[age - 1]
    }

    pub fn composite(&self) -> u64 {
        self.composite
    }
}

/// "Each factor is worked back from the one of the next age." "At the last age
/// (16 or 4) U is 0", so the factor there is H.
pub fn kept_factors(pattern: &Pattern, rate: u64) -> Vec<u64> {
    let half_year = half_year_factor(rate);
    let mut factors = vec![half_year; pattern.last_age()];
    for age in (1..pattern.last_age()).rev() {
        let unpaid = pattern.unpaid(age);
        if unpaid > 0 {
            let payment = pattern.payment(age + 1);
            let next_factor = factors[age];
            factors[age - 1] = factor_before(unpaid, payment, next_factor, half_year, rate);
        }
    }
    factors
}

/// "let g be next factor × 10000 / (10000 + R), rounded down"
pub fn year_earlier(next_factor: u64, rate: u64) -> u64 {
    let earlier = u128::from(next_factor) * 10_000 / u128::from(10_000 + rate);
    u64::try_from(earlier).expect("a factor is at most 1")
}

/// "Otherwise let g be next factor × 10000 / (10000 + R), rounded down; the
/// factor is (p × H + V × g) / U, rounded down", with V = U - p.
fn factor_before(unpaid: u64, payment: u64, next_factor: u64, half_year: u64, rate: u64) -> u64 {
    let paid_next = u128::from(payment) * u128::from(half_year);
    let later = u128::from(year_earlier(next_factor, rate));
    let paid_later = u128::from(unpaid - payment) * later;
    let factor = (paid_next + paid_later) / u128::from(unpaid);
    u64::try_from(factor).expect("a factor is at most 1")
}

/// "The composite, for the prior row, is the unpaid-weighted mean of the
/// factors of ages 11 to 15, rounded down (H if all unpaid are 0)."
fn ten_year_composite(pattern: &Pattern, kept: &[u64], half_year: u64) -> u64 {
    let mut unpaid_sum = 0;
    let mut weighted_sum = 0;
    for age in 11..=15 {
        let unpaid = u128::from(pattern.unpaid(age));
        unpaid_sum += unpaid;
        weighted_sum += unpaid * u128::from(kept[age - 1]);
    }
    if unpaid_sum == 0 {
        return half_year;
    }
    u64::try_from(weighted_sum / unpaid_sum).expect("a mean of factors is at most 1")
}

/// "A published factor is (kept + 5000) / 10000 rounded down: six decimals."
pub fn published(kept: u64) -> u64 {
    (kept + 5_000) / 10_000
}
