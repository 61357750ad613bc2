//! Where a short RATE fails: question 14.

use super::earlier_records::Subject;
use super::months::{joined_months, span_words};
use super::refusal::{Fault, Refused};
use crate::rate::MONTHS;
use crate::record::{read, Request};
use crate::register::{months_of_rate, Month};

/// At most so many refused MIDTs are named.
const MOST_REFUSED: usize = 3;

/// Question 14.
pub fn months_lacking(refused: &Refused) -> Fault {
    let Ok(Request::RateOfRegister { year }) = read(refused.line) else {
        return Fault::default();
    };
    let lacking = refused.book.register.lacking(year);
    let months = months_of_rate(year);
    let window = span_words(months[0], months[MONTHS - 1]);
    let what = match lacking.len() {
        MONTHS => "has none of them".to_string(),
        count => format!("lacks {count} of the sixty: {}", joined_months(&lacking)),
    };
    let place = format!("RATE {year} takes the months from {window}, and the register {what}");
    let mut hints = refused_before(refused, &lacking);
    hints.push(how_to_mend(lacking.len()).to_string());
    Fault::at(place, hints)
}

/// The MIDTs of these months that were refused in the lines before.
fn refused_before(refused: &Refused, lacking: &[Month]) -> Vec<String> {
    let subjects = lacking.iter().map(|month| Subject::of_month(*month));
    let refusals = subjects.filter_map(|subject| refused.earlier.refusal_of(subject));
    refusals.take(MOST_REFUSED).collect()
}

fn how_to_mend(months: usize) -> &'static str {
    if months == 1 {
        "give a MIDT of that month before this line, or all sixty rates in this line"
    } else {
        "give a MIDT of each of these months before this line, or all sixty rates in this line"
    }
}
