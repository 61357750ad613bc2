//! Exact ratios, for the bounds of demand 3.
//!
//! An exact ratio "is a fraction times the root of 10000/(10000 + R), so bounds
//! on it are stated by comparing squares of whole numbers".

use std::cmp::Ordering;

use crate::kinds::LineKind;
use crate::pattern::Pattern;

/// A whole number of any size, its lowest 32 bits first, without zeros at the
/// high end.
#[derive(Clone, Debug, PartialEq, Eq)]
pub struct Natural {
    parts: Vec<u32>,
}

impl Natural {
    pub fn new(number: u128) -> Natural {
        let parts = (0..4).map(|place| (number >> (32 * place)) as u32);
        Natural::from_parts(parts.collect())
    }

    fn from_parts(mut parts: Vec<u32>) -> Natural {
        while parts.last() == Some(&0) {
            parts.pop();
        }
        Natural { parts }
    }

    fn part(&self, place: usize) -> u64 {
        u64::from(*self.parts.get(place).unwrap_or(&0))
    }

    pub fn plus(&self, other: &Natural) -> Natural {
        let mut parts = Vec::new();
        let mut carry = 0;
        for place in 0..=self.parts.len().max(other.parts.len()) {
            let sum = self.part(place) + other.part(place) + carry;
            parts.push(sum as u32);
            carry = sum >> 32;
        }
        Natural::from_parts(parts)
    }

    pub fn times(&self, other: &Natural) -> Natural {
        let mut parts = vec![0_u32; self.parts.len() + other.parts.len()];
        for (low, part) in self.parts.iter().enumerate() {
            let mut carry = 0;
            for place in 0..parts.len() - low {
                let product = u64::from(*part) * other.part(place);
                let sum = u64::from(parts[low + place]) + product + carry;
                parts[low + place] = sum as u32;
                carry = sum >> 32;
            }
        }
        Natural::from_parts(parts)
    }

    pub fn squared(&self) -> Natural {
        self.times(self)
    }
}

impl Ord for Natural {
    fn cmp(&self, other: &Natural) -> Ordering {
        let by_length = self.parts.len().cmp(&other.parts.len());
        let by_parts = || self.parts.iter().rev().cmp(other.parts.iter().rev());
        by_length.then_with(by_parts)
    }
}

impl PartialOrd for Natural {
    fn partial_cmp(&self, other: &Natural) -> Option<Ordering> {
        Some(self.cmp(other))
    }
}

/// numerator / denominator × the root of 10000 / (10000 + R).
#[derive(Clone, Debug)]
pub struct ExactRatio {
    numerator: Natural,
    denominator: Natural,
    rate: u64,
}

impl ExactRatio {
    /// "The exact ratio at an age with U above 0 is the sum over later payments
    /// of payment / (1 + r)^(d + 1/2), d the whole years from the next age,
    /// divided by U, where r is R/10000." Nothing where U is 0.
    pub fn at_age(pattern: &Pattern, rate: u64, age: usize) -> Option<ExactRatio> {
        ExactRatio::mean(pattern, rate, &[age])
    }

    /// "Its exact value is the same mean of the exact ratios at those of its
    /// ages with U above 0 (for a two-year line the exact ratio at age 3)."
    pub fn composite(kind: LineKind, pattern: &Pattern, rate: u64) -> Option<ExactRatio> {
        match kind {
            LineKind::TenYear => ExactRatio::mean(pattern, rate, &[11, 12, 13, 14, 15]),
            LineKind::TwoYear => ExactRatio::at_age(pattern, rate, 3),
        }
    }

    /// The unpaid-weighted mean of the exact ratios at some ages.
    fn mean(pattern: &Pattern, rate: u64, ages: &[usize]) -> Option<ExactRatio> {
        let unpaid: u64 = ages.iter().map(|age| pattern.unpaid(*age)).sum();
        if unpaid == 0 {
            return None;
        }
        let years = pattern.last_age();
        let values = ages
            .iter()
            .map(|age| discounted_payments(pattern, rate, *age, years));
        let numerator = values.fold(Natural::new(0), |sum, value| sum.plus(&value));
        let denominator = power(10_000 + rate, years).times(&Natural::new(unpaid.into()));
        Some(ExactRatio {
            numerator,
            denominator,
            rate,
        })
    }

    /// How `amount` stands to `multiple` × the exact ratio.
    pub fn compare(&self, amount: u128, multiple: u128) -> Ordering {
        let amount = Natural::new(amount).times(&self.denominator);
        let ratio = Natural::new(multiple).times(&self.numerator);
        let amount = amount
            .squared()
            .times(&Natural::new(u128::from(10_000 + self.rate)));
        let ratio = ratio.squared().times(&Natural::new(10_000));
        amount.cmp(&ratio)
    }
}

/// The sum over the payments after an age of payment × 10000^d × D^(years - d),
/// where D = 10000 + R and d is the whole years from the next age.
fn discounted_payments(pattern: &Pattern, rate: u64, age: usize, years: usize) -> Natural {
    let mut sum = Natural::new(0);
    for later_age in age + 1..=pattern.last_age() {
        let whole_years = later_age - age - 1;
        let discount = power(10_000, whole_years).times(&power(10_000 + rate, years - whole_years));
        let payment = Natural::new(u128::from(pattern.payment(later_age)));
        sum = sum.plus(&payment.times(&discount));
    }
    sum
}

fn power(base: u64, exponent: usize) -> Natural {
    let base = Natural::new(u128::from(base));
    (0..exponent).fold(Natural::new(1), |product, _| product.times(&base))
}
