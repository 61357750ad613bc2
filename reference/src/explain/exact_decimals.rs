//! The exact ratio in decimals.

use std::cmp::Ordering;

use crate::exact::ExactRatio;

/// Demand 3: a kept factor is at most the exact ratio and less than so many
/// units of the tenth decimal below it.
pub const BOUND: u64 = 29;

/// Units of the thirteenth decimal in one of the tenth.
const FINER: u64 = 1_000;

/// An exact ratio in units of the thirteenth decimal, rounded half up. It is
/// found by halving the interval of demand 3 above the kept factor.
pub fn thirteen_decimals(exact: &ExactRatio, kept: u64) -> u64 {
    let one = 10_u128.pow(13);
    let mut at_most = kept * FINER;
    let mut above = (kept + BOUND) * FINER;
    while above - at_most > 1 {
        let middle = at_most + (above - at_most) / 2;
        if exact.compare(u128::from(middle), one) == Ordering::Greater {
            above = middle;
        } else {
            at_most = middle;
        }
    }
    let half_above = exact.compare(2 * u128::from(at_most) + 1, 2 * one) != Ordering::Greater;
    at_most + u64::from(half_above)
}

/// What rounding lost, in thousandths of a unit of the tenth decimal.
pub fn lost(thirteen_decimals: u64, kept: u64) -> u64 {
    thirteen_decimals - kept * FINER
}
