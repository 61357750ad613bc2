//! Demand 3 in exact arithmetic: kept factors and composites, discounted rows,
//! and the losses of a line over its years.

use std::cmp::Ordering;
use std::collections::BTreeMap;

use reference::answer::Answer;
use reference::book::{Book, KeptPattern};
use reference::exact::ExactRatio;
use reference::factor::{published, Factors};
use reference::kinds::{Letter, LineKind};
use reference::pattern::{cumulative_ratio, Pattern};
use reference::random::Random;
use reference::rate::accident_year_rate;
use reference::record::{read, Request};
use reference::reserve::{Row, YearEnd};
use reference::run::records;
use reference::stream::random_stream;

/// A factor of 1, in units of the tenth decimal.
const ONE: u128 = 10_000_000_000;

/// A kept factor is at most its exact ratio and less than this many units
/// below it.
const FACTOR_BOUND: u64 = 29;

fn check_factor(kept: u64, exact: &ExactRatio) {
    assert_ne!(exact.compare(kept.into(), ONE), Ordering::Greater);
    let above = u128::from(kept + FACTOR_BOUND);
    assert_eq!(exact.compare(above, ONE), Ordering::Greater);
}

/// The largest number of hundredths of a unit by which a kept factor can be
/// raised without passing its exact ratio.
fn loss_in_hundredths(kept: u64, exact: &ExactRatio) -> u128 {
    let kept = 100 * u128::from(kept);
    let within = |loss: &u128| exact.compare(kept + loss, 100 * ONE) != Ordering::Greater;
    (0..=100 * u128::from(FACTOR_BOUND))
        .take_while(within)
        .last()
        .expect("a kept factor is at most its exact ratio")
}

/// "The row's distance from the smaller of this and its exact discounted value
/// is at most 1/2 + gross × 5,028 / 10,000,000,000", all times 20,000,000,000.
fn check_row(row: Row, discounted: u64, exact: &ExactRatio) {
    let gross = u128::from(row.gross());
    let discounted = 2 * ONE * u128::from(discounted);
    let stated = 2 * ONE * u128::from(row.unpaid);
    let distance = ONE + 2 * 5_028 * gross;
    let lowest = discounted.saturating_sub(distance);
    let highest = discounted + distance;
    let exact_multiple = 2 * ONE * gross;
    assert!(lowest <= stated);
    assert_ne!(exact.compare(lowest, exact_multiple), Ordering::Greater);
    let above_exact = exact.compare(highest, exact_multiple) != Ordering::Less;
    assert!(above_exact || highest >= stated);
}

/// The exact ratios of a pattern with its rate: one an age, and the composite's.
struct ExactFactors {
    ages: Vec<Option<ExactRatio>>,
    composite: Option<ExactRatio>,
}

impl ExactFactors {
    fn new(kind: LineKind, pattern: &Pattern, rate: u64) -> ExactFactors {
        let ages = 1..=pattern.last_age();
        ExactFactors {
            ages: ages
                .map(|age| ExactRatio::at_age(pattern, rate, age))
                .collect(),
            composite: ExactRatio::composite(kind, pattern, rate),
        }
    }

    fn check(&self, factors: &Factors) {
        for (age, exact) in (1..).zip(&self.ages) {
            if let Some(exact) = exact {
                check_factor(factors.kept(age), exact);
            }
        }
        if let Some(exact) = &self.composite {
            check_factor(factors.composite(), exact);
        }
    }
}

/// The terms of demand 3 that come from the accepted records of one line.
#[derive(Default)]
struct LineTerms {
    declared_opening: i128,
    exact_factors: BTreeMap<u64, ExactFactors>,
    closed_years: u64,
    payments: i128,
    losses: i128,
}

/// The terms of demand 3 of a whole list.
#[derive(Default)]
struct Terms {
    rates: BTreeMap<u64, u64>,
    /// By year and month.
    monthly_rates: BTreeMap<(u64, u64), u64>,
    lines: BTreeMap<Letter, LineTerms>,
    rows_checked: usize,
    rows_at_stated: usize,
}

impl Terms {
    /// Takes in an accepted record, with the book after it.
    fn take(&mut self, request: &Request, answer: &Answer, book: &Book) {
        match (request, answer) {
            (Request::Line { letter, opening }, _) => {
                let line = self.lines.entry(*letter).or_default();
                line.declared_opening = i128::from(*opening);
            }
            (
                Request::Rate { .. } | Request::RateOfRegister { .. } | Request::MonthlyRate { .. },
                _,
            ) => self.take_rate(request),
            (Request::Pattern { letter, year, rows }, _) => {
                let ratios: Vec<u64> = rows.iter().map(|row| cumulative_ratio(*row)).collect();
                let pattern = Pattern::new(letter.kind(), &ratios);
                let exact = ExactFactors::new(letter.kind(), &pattern, self.rates[year]);
                let kept = book.lines[letter].pattern(*year).expect("just given");
                exact.check(&kept.factors);
                let line = self.lines.get_mut(letter).expect("declared");
                line.exact_factors.insert(*year, exact);
            }
            (Request::Year { letter, year, rows }, Answer::Tax { year_end, .. }) => {
                self.check_rows(*letter, *year, rows, year_end, book);
                self.check_losses(*letter, rows, year_end);
            }
            (Request::Sum { letter }, Answer::Sum { totals, .. }) => {
                let line = &self.lines[letter];
                let expected = (line.closed_years, line.payments, line.losses);
                assert_eq!((totals.closed_years, totals.paid, totals.losses), expected);
            }
            (Request::Year { .. } | Request::Sum { .. }, _) => {
                panic!("a closed year is answered with TAX, a SUM with SUM")
            }
        }
    }

    /// Takes in a RATE of either form, or a MIDT.
    fn take_rate(&mut self, request: &Request) {
        let (year, rates) = match request {
            Request::Rate {
                year,
                monthly_rates,
            } => (*year, monthly_rates.clone()),
            Request::RateOfRegister { year } => {
                let months = self.monthly_rates.range((*year - 5, 1)..(*year, 1));
                (*year, months.map(|(_, rate)| *rate).collect())
            }
            Request::MonthlyRate { month, rate } => {
                self.monthly_rates.insert((month.year, month.number), *rate);
                return;
            }
            _ => panic!("no rate"),
        };
        assert_eq!(rates.len(), 60);
        self.rates.insert(year, accident_year_rate(&rates));
    }

    /// Each discounted row is near its exact value, and they sum to the closing.
    fn check_rows(&mut self, letter: Letter, year: u64, rows: &[Row], end: &YearEnd, book: &Book) {
        let exact_factors = &self.lines[&letter].exact_factors;
        let ages = letter.kind().ages();
        let mut closing = 0;
        for (age, row) in (1..).zip(rows).filter(|(_, row)| row.gross() > 0) {
            let accident_year = if age <= ages {
                year + 1 - age as u64
            } else {
                year
            };
            let kept = book.lines[&letter].pattern(accident_year);
            let kept: &KeptPattern = kept.expect("question 13");
            let own = &exact_factors[&accident_year];
            let (factor, exact) = if age <= ages {
                (kept.factors.kept(age), &own.ages[age - 1])
            } else {
                (kept.factors.composite(), &own.composite)
            };
            let discounted = row.discounted(published(factor));
            closing += discounted;
            if let Some(exact) = exact {
                check_row(*row, discounted, exact);
                self.rows_checked += 1;
                self.rows_at_stated += usize::from(discounted == row.unpaid);
            }
        }
        assert_eq!(closing, end.closing);
    }

    /// The losses of the years closed so far are their payments plus the last
    /// closing less the declared opening.
    fn check_losses(&mut self, letter: Letter, rows: &[Row], end: &YearEnd) {
        let line = self.lines.get_mut(&letter).expect("declared");
        line.closed_years += 1;
        line.payments += rows.iter().map(|row| i128::from(row.paid)).sum::<i128>();
        line.losses += i128::from(end.loss);
        let closing = i128::from(end.closing);
        assert_eq!(line.losses, line.payments + closing - line.declared_opening);
    }
}

/// The terms of a whole stream, with every check made after each record.
fn check_stream(stream: &[u8]) -> Terms {
    let mut book = Book::default();
    let mut terms = Terms::default();
    for line in records(stream) {
        let answer = book.answer(line);
        if !matches!(answer, Answer::No(_)) {
            let request = read(line).expect("an accepted record");
            terms.take(&request, &answer, &book);
        }
    }
    terms
}

#[test]
fn demand_3_holds_over_random_streams() {
    for seed in 100..120 {
        let terms = check_stream(&random_stream(seed, 1_200));
        assert!(terms.rows_checked > 500, "{}", terms.rows_checked);
        let below_stated = terms.rows_checked - terms.rows_at_stated;
        assert!(terms.rows_at_stated > 100 && below_stated > 100);
    }
}

#[test]
fn demand_3_holds_for_an_empty_list() {
    let terms = check_stream(b"");
    assert!(terms.lines.is_empty() && terms.rates.is_empty());
}

/// Ratios that do not fall, with steps of every size down to one unit.
fn random_ratios(random: &mut Random, kind: LineKind) -> Vec<u64> {
    let mut ratio = 0;
    let largest_step = 10_u64.pow(random.between(1, 8) as u32);
    let mut ratios = Vec::new();
    for _age in 0..kind.ages() {
        ratio = (ratio + random.below(largest_step)).min(100_000_000);
        ratios.push(ratio);
    }
    ratios
}

#[test]
fn factors_are_within_their_bounds_for_random_patterns() {
    let mut random = Random::new(846);
    for number in 0..6_000 {
        let kind = [LineKind::TenYear, LineKind::TwoYear][number % 2];
        let rate = match number % 3 {
            0 => random.below(60),
            _ => random.below(2_501),
        };
        let pattern = Pattern::new(kind, &random_ratios(&mut random, kind));
        let factors = Factors::new(kind, &pattern, rate);
        ExactFactors::new(kind, &pattern, rate).check(&factors);
    }
}

#[test]
fn rows_are_within_their_bounds_for_random_patterns() {
    let mut random = Random::new(832);
    for _ in 0..1_500 {
        let rate = random.below(2_501);
        let pattern = Pattern::new(
            LineKind::TenYear,
            &random_ratios(&mut random, LineKind::TenYear),
        );
        let factors = Factors::new(LineKind::TenYear, &pattern, rate);
        let exact = ExactFactors::new(LineKind::TenYear, &pattern, rate);
        let age = random.between(1, 10) as usize;
        let Some(exact) = &exact.ages[age - 1] else {
            continue;
        };
        for _ in 0..10 {
            let row = Row {
                paid: 0,
                unpaid: random.amount(),
                tabular_discount: random.amount(),
            };
            check_row(row, row.discounted(published(factors.kept(age))), exact);
        }
    }
}

/// The cumulative half units of a pattern whose factors lose much: with rate
/// 15, 23.13 units at age 1.
const WITNESS: [u64; 10] = [
    994_206, 994_254, 1_114_698, 1_426_324, 1_426_330, 1_432_190, 1_432_230, 1_438_232, 1_446_666,
    1_446_692,
];

/// What each factor of the witness is below its exact ratio, in hundredths of
/// a unit rounded down, ages 1 to 15.
const WITNESS_LOSSES: [u128; 15] = [
    2313, 2122, 1966, 1851, 1672, 1507, 1382, 1207, 1086, 937, 765, 615, 434, 275, 96,
];

#[test]
fn the_witness_loses_more_than_23_units() {
    let ratios = WITNESS.map(|half_units| half_units / 2);
    let pattern = Pattern::new(LineKind::TenYear, &ratios);
    let factors = Factors::new(LineKind::TenYear, &pattern, 15);
    let exact = ExactFactors::new(LineKind::TenYear, &pattern, 15);
    exact.check(&factors);
    let losses: Vec<u128> = (1..=15)
        .map(|age| {
            let exact = exact.ages[age - 1].as_ref().expect("unpaid above 0");
            loss_in_hundredths(factors.kept(age), exact)
        })
        .collect();
    assert_eq!(losses, WITNESS_LOSSES);
    let composite = exact.composite.as_ref().expect("unpaid above 0");
    assert_eq!(loss_in_hundredths(factors.composite(), composite), 466);
    assert_eq!(factors.kept(1), 9_785_414_717);
    assert_eq!(factors.composite(), 9_962_620_598);
}
