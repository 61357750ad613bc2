//! The worksheet of an accepted PATT, like exhibit 11 of source document 000.

use super::exact_decimals::{lost, thirteen_decimals, BOUND};
use super::line_names::described;
use super::plot::{Plot, Point};
use super::report::{labelled, numbers, paragraph, Block, Table};
use super::shown::{decimal, percent, thousands};
use crate::book::KeptPattern;
use crate::exact::ExactRatio;
use crate::factor::{half_year_factor, published, year_earlier};
use crate::kinds::{Letter, LineKind};
use crate::pattern::{tail_cap, CumulativeRow, WHOLE};

/// An accepted PATT with what the book keeps of it.
pub struct PatternSheet<'a> {
    pub letter: Letter,
    pub rows: &'a [CumulativeRow],
    pub rate: u64,
    pub kept: &'a KeptPattern,
}

impl PatternSheet<'_> {
    pub fn blocks(&self) -> Vec<Block> {
        let year = self.kept.accident_year;
        let mut blocks = vec![
            paragraph(format!(
                "The payment pattern of accident year {year} in {} is kept, with its factors \
                 at the rate of {year}, {}.",
                described(self.letter),
                percent(self.rate),
            )),
            Block::Table(self.payments()),
            labelled("H", self.half_year()),
            labelled("g", self.year_before()),
            labelled(
                "factor",
                "(p × H + (U - p) × g) / U, rounded down to ten decimals",
            ),
            Block::Table(self.factors()),
            paragraph(self.composite_rule()),
        ];
        blocks.extend(self.by_hand());
        blocks.push(Block::Plot(self.plot()));
        blocks
    }

    fn ages(&self) -> std::ops::RangeInclusive<usize> {
        1..=self.kept.pattern.last_age()
    }

    fn payments(&self) -> Table {
        let columns = [
            "age",
            "paid",
            "incurred",
            "cumulative ratio",
            "payment",
            "unpaid",
        ];
        Table {
            caption: format!(
                "Payments, as parts of the incurred losses. The cumulative ratio is paid / \
                 incurred. {}",
                self.tail()
            ),
            columns: columns.map(numbers).to_vec(),
            rows: self.ages().map(|age| self.payment_row(age)).collect(),
        }
    }

    /// Ages of the tail have no paid and incurred of their own.
    fn payment_row(&self, age: usize) -> Vec<String> {
        let pattern = &self.kept.pattern;
        let given = self.rows.get(age - 1);
        let amount = |amount: Option<u64>| amount.map_or_else(String::new, thousands);
        vec![
            age.to_string(),
            amount(given.map(|row| row.paid)),
            amount(given.map(|row| row.incurred)),
            part(WHOLE - pattern.unpaid(age)),
            part(pattern.payment(age)),
            part(pattern.unpaid(age)),
        ]
    }

    fn tail(&self) -> String {
        match self.letter.kind() {
            LineKind::TenYear => self.ten_year_tail(),
            LineKind::TwoYear => {
                "Ages 3 and 4 each pay half of what is unpaid after age 2.".to_string()
            }
        }
    }

    fn ten_year_tail(&self) -> String {
        let last_payments = [8, 9, 10].map(|age| self.kept.pattern.payment(age));
        match (last_payments[2], tail_cap(last_payments)) {
            (0, 0) => "Age 10 paid nothing, and the mean of ages 8, 9 and 10 is 0, so age 16 pays \
                       all that is unpaid."
                .to_string(),
            (0, mean) => format!(
                "Age 10 paid nothing, so ages 11 to 15 each pay the mean of ages 8, 9 and 10, \
                 {}, while so much is unpaid, and age 16 the rest.",
                part(mean)
            ),
            _ => "Ages 11 to 15 each pay as much as age 10 while so much is unpaid, and age 16 \
                  the rest."
                .to_string(),
        }
    }

    fn half_year(&self) -> String {
        format!(
            "{}, what 1 is worth half a year before: the largest with H × H × {} at most 1",
            decimal(half_year_factor(self.rate), 10),
            self.one_and_rate()
        )
    }

    fn year_before(&self) -> String {
        let divisor = self.one_and_rate();
        format!("next factor / {divisor}, rounded down to ten decimals")
    }

    /// 1 + r, with four decimals.
    fn one_and_rate(&self) -> String {
        decimal(10_000 + self.rate, 4)
    }

    fn factors(&self) -> Table {
        let titles = [
            "age",
            "unpaid U",
            "next payment p",
            "g",
            "kept factor",
            "exact ratio",
            "lost",
            "published",
        ];
        let mut rows: Vec<Vec<String>> = self.ages().map(|age| self.factor_row(age)).collect();
        rows.push(self.composite_row());
        Table {
            caption: format!(
                "Factors, worked back from the last age. Of the unpaid U, p is paid half a year \
                 later; 1 of the rest is worth g. Lost is what rounding took from the exact ratio, \
                 in units of the tenth decimal: less than {BOUND}, which is proved of the book."
            ),
            columns: titles.map(numbers).to_vec(),
            rows,
        }
    }

    fn factor_row(&self, age: usize) -> Vec<String> {
        let KeptPattern {
            pattern, factors, ..
        } = self.kept;
        let mut row = vec![age.to_string(), part(pattern.unpaid(age))];
        if pattern.unpaid(age) > 0 {
            let earlier = year_earlier(factors.kept(age + 1), self.rate);
            row.extend([part(pattern.payment(age + 1)), decimal(earlier, 10)]);
        } else {
            row.extend([String::new(), String::new()]);
        }
        let exact = ExactRatio::at_age(pattern, self.rate, age);
        row.extend(kept_and_exact(factors.kept(age), exact));
        let is_published = age <= self.letter.kind().ages();
        let published = is_published.then(|| decimal(published(factors.kept(age)), 6));
        row.push(published.unwrap_or_default());
        row
    }

    fn composite_row(&self) -> Vec<String> {
        let KeptPattern {
            pattern, factors, ..
        } = self.kept;
        let kind = self.letter.kind();
        let unpaid: u64 = composite_ages(kind).map(|age| pattern.unpaid(age)).sum();
        let mut row = vec!["composite".to_string(), part(unpaid)];
        row.extend([String::new(), String::new()]);
        let exact = ExactRatio::composite(kind, pattern, self.rate);
        row.extend(kept_and_exact(factors.composite(), exact));
        row.push(decimal(published(factors.composite()), 6));
        row
    }

    fn composite_rule(&self) -> String {
        let rule = match self.letter.kind() {
            LineKind::TenYear => {
                "the mean of the factors of ages 11 to 15, weighted with their unpaid"
            }
            LineKind::TwoYear => "the factor of age 3",
        };
        format!(
            "Where nothing is unpaid the factor is H, and there is no exact ratio. The composite, \
             for the prior row, is {rule}. A published factor is the kept one to six decimals, a \
             half up; FACT prints it in millionths."
        )
    }

    /// The factor of the youngest age after whose next payment something is
    /// unpaid, step by step.
    fn by_hand(&self) -> Vec<Block> {
        let KeptPattern {
            pattern, factors, ..
        } = self.kept;
        let mut ages = 1..pattern.last_age();
        let Some(age) = ages.find(|age| pattern.unpaid(age + 1) > 0) else {
            return Vec::new();
        };
        let next = decimal(factors.kept(age + 1), 10);
        let earlier = decimal(year_earlier(factors.kept(age + 1), self.rate), 10);
        let factor = decimal(factors.kept(age), 10);
        let half_year = decimal(half_year_factor(self.rate), 10);
        let [unpaid, later] = [age, age + 1].map(|age| part(pattern.unpaid(age)));
        let payment = part(pattern.payment(age + 1));
        vec![
            paragraph(format!("Age {age} by hand:")),
            labelled("g", format!("{next} / {} = {earlier}", self.one_and_rate())),
            labelled(
                "factor",
                format!("({payment} × {half_year} + {later} × {earlier}) / {unpaid} = {factor}"),
            ),
        ]
    }

    fn plot(&self) -> Plot {
        let KeptPattern {
            pattern, factors, ..
        } = self.kept;
        let mut points: Vec<Point> = self
            .ages()
            .map(|age| Point {
                name: age.to_string(),
                factor: factors.kept(age),
                has_unpaid: pattern.unpaid(age) > 0,
            })
            .collect();
        points.push(Point {
            name: "prior".to_string(),
            factor: factors.composite(),
            has_unpaid: composite_ages(self.letter.kind()).any(|age| pattern.unpaid(age) > 0),
        });
        let letter = self.letter.character();
        let year = self.kept.accident_year;
        Plot {
            title: format!("Factor by age: line {letter}, accident year {year}"),
            points,
        }
    }
}

/// The ages whose unpaid weigh in the composite.
fn composite_ages(kind: LineKind) -> std::ops::RangeInclusive<usize> {
    match kind {
        LineKind::TenYear => 11..=15,
        LineKind::TwoYear => 3..=3,
    }
}

/// Half units as a part of the whole: eight decimals, nine where it is odd.
fn part(half_units: u64) -> String {
    if half_units.is_multiple_of(2) {
        decimal(half_units / 2, 8)
    } else {
        decimal(half_units * 5, 9)
    }
}

/// A kept factor, its exact ratio, and what rounding lost.
fn kept_and_exact(kept: u64, exact: Option<ExactRatio>) -> [String; 3] {
    let kept_text = decimal(kept, 10);
    let Some(exact) = exact else {
        return [kept_text, "none".to_string(), String::new()];
    };
    let thirteen = thirteen_decimals(&exact, kept);
    [
        kept_text,
        decimal(thirteen, 13),
        decimal(lost(thirteen, kept), 3),
    ]
}
