//! Payment patterns and discount factors. Every product fits 64 bits: the
//! largest are 2 × 10^18, and 10^19 for the composite.

/// A whole, in half units.
const WHOLE: u64 = 200_000_000;

/// A pattern's paid and incurred, youngest age first.
#[derive(Default)]
pub struct Cumulative {
    pub paid: [u64; 10],
    pub incurred: [u64; 10],
}

/// An accident year's rate with its half-year factor.
#[derive(Clone, Copy)]
pub struct Discount {
    pub rate: u64,
    pub half_year: u64,
}

impl Discount {
    pub fn of_rate(rate: u64) -> Discount {
        let square = 10_u128.pow(24) / u128::from(10_000 + rate);
        let half_year = square.isqrt() as u64;
        Discount { rate, half_year }
    }
}

/// The published factors of the ages, the composite last. Questions 11 and 12
/// come first.
pub fn publish(cumulative: &Cumulative, ages: usize, discount: Discount) -> Result<[u32; 11], u8> {
    let paid = &cumulative.paid[..ages];
    let incurred = &cumulative.incurred[..ages];
    let mut pairs = paid.iter().zip(incurred);
    if !pairs.all(|(paid, incurred)| *incurred > 0 && paid <= incurred) {
        return Err(11);
    }
    let mut payments = [0; 16];
    let mut ratio_before = 0;
    for age in 0..ages {
        let ratio = (paid[age] * 100_000_000 + incurred[age] / 2) / incurred[age];
        if ratio < ratio_before {
            return Err(12);
        }
        payments[age] = 2 * (ratio - ratio_before);
        ratio_before = ratio;
    }
    let unpaid = WHOLE - 2 * ratio_before;
    if ages == 10 {
        Ok(ten_year(payments, unpaid, discount))
    } else {
        Ok(two_year(payments, unpaid, discount))
    }
}

/// Ages 11 to 15 pay what age 10 paid, or the mean of ages 8 to 10 if it paid
/// nothing, as far as there is; age 16 the rest.
fn ten_year(mut payments: [u64; 16], unpaid: u64, discount: Discount) -> [u32; 11] {
    let cap = if payments[9] == 0 {
        (payments[7] + payments[8]) / 3
    } else {
        payments[9]
    };
    let mut left = unpaid;
    for payment in &mut payments[10..15] {
        *payment = cap.min(left);
        left -= *payment;
    }
    payments[15] = left;
    let mut walk = Walk::from_last_age(discount);
    let (mut unpaid_sum, mut weighted_sum) = (0, 0);
    for payment in payments[11..].iter().rev() {
        walk.step_back(*payment);
        unpaid_sum += walk.unpaid;
        weighted_sum += walk.unpaid * walk.factor;
    }
    let composite = weighted_sum.checked_div(unpaid_sum);
    let mut published = [0; 11];
    published[10] = published_factor(composite.unwrap_or(discount.half_year));
    for age in (0..10).rev() {
        walk.step_back(payments[age + 1]);
        published[age] = published_factor(walk.factor);
    }
    published
}

/// Ages 3 and 4 pay half each; the composite is the factor of age 3.
fn two_year(payments: [u64; 16], unpaid: u64, discount: Discount) -> [u32; 11] {
    let mut walk = Walk::from_last_age(discount);
    let mut published = [0; 11];
    walk.step_back(unpaid / 2);
    published[2] = published_factor(walk.factor);
    walk.step_back(unpaid / 2);
    published[1] = published_factor(walk.factor);
    walk.step_back(payments[1]);
    published[0] = published_factor(walk.factor);
    published
}

/// The walk over the ages, from the last one back.
struct Walk {
    discount: Discount,
    unpaid: u64,
    factor: u64,
}

impl Walk {
    fn from_last_age(discount: Discount) -> Walk {
        Walk {
            discount,
            unpaid: 0,
            factor: discount.half_year,
        }
    }

    /// To the age before, at whose next age this much is paid.
    fn step_back(&mut self, payment: u64) {
        let later = self.unpaid;
        self.unpaid += payment;
        if self.unpaid == 0 {
            return;
        }
        let a_year_earlier = self.factor * 10_000 / (10_000 + self.discount.rate);
        let sum = payment * self.discount.half_year + later * a_year_earlier;
        self.factor = sum / self.unpaid;
    }
}

fn published_factor(kept: u64) -> u32 {
    ((kept + 5_000) / 10_000) as u32
}
