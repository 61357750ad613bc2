//! The book's state, and questions 7 to 14.

use crate::answer::{self, Tax, Totals};
use crate::factor::{publish, Cumulative, Discount};
use crate::letter::Letter;
use crate::reader::{Reader, Word, AMOUNT, MONTH, OPENING, RATE, REGISTER_YEAR, YEAR};
use crate::register::Register;
use crate::year_end::Row;

/// One pattern's published factors, by age, and its composite after them.
type Published = [u32; 11];

/// A line. A year of 0 is none.
#[derive(Clone, Copy)]
struct Line {
    declared: bool,
    opening: u64,
    first_pattern: u64,
    last_pattern: u64,
    last_closed: u64,
    totals: Totals,
    /// The pattern of an accident year stands at the year's last digit.
    patterns: [Published; 10],
}

const UNDECLARED: Line = Line {
    declared: false,
    opening: 0,
    first_pattern: 0,
    last_pattern: 0,
    last_closed: 0,
    totals: Totals {
        closed_years: 0,
        paid: 0,
        losses: 0,
    },
    patterns: [[0; 11]; 10],
};

pub struct Book {
    lines: [Line; 15],
    discounts: [Option<Discount>; 113],
    register: Register,
    pub accepted: u64,
    pub refused: u64,
}

impl Book {
    pub fn empty() -> Book {
        Book {
            lines: [UNDECLARED; 15],
            discounts: [None; 113],
            register: Register::empty(),
            accepted: 0,
            refused: 0,
        }
    }

    /// Reads the next record and answers it, or gives the number of the first
    /// question that is answered no.
    pub fn answer(&mut self, reader: &mut Reader, output: &mut Vec<u8>) -> Result<(), u8> {
        match reader.word()? {
            Word::Line => self.declare(reader, output),
            Word::Rate => self.give_rate(reader, output),
            Word::Pattern => self.give_pattern(reader, output),
            Word::Year => self.close_year(reader, output),
            Word::Sum => self.sum(reader, output),
            Word::MonthlyRate => self.give_monthly_rate(reader, output),
        }
    }

    fn declare(&mut self, reader: &mut Reader, output: &mut Vec<u8>) -> Result<(), u8> {
        let letter = reader.letter()?;
        let opening = reader.number(&OPENING)?;
        reader.end_record()?;
        let line = &mut self.lines[letter.place()];
        if line.declared {
            return Err(7);
        }
        line.declared = true;
        line.opening = opening;
        answer::line(output, letter, opening);
        Ok(())
    }

    fn give_rate(&mut self, reader: &mut Reader, output: &mut Vec<u8>) -> Result<(), u8> {
        let year = reader.number(&YEAR)?;
        let sum = if reader.has_field() {
            Some(sum_of_sixty(reader)?)
        } else {
            None
        };
        reader.end_record()?;
        let discount = &mut self.discounts[(year - YEAR.lowest) as usize];
        if discount.is_some() {
            return Err(7);
        }
        let sum = match sum {
            Some(sum) => sum,
            None => self.register.sum_before(year)?,
        };
        let rate = (sum + 30) / 60;
        *discount = Some(Discount::of_rate(rate));
        answer::rate(output, year, rate);
        Ok(())
    }

    fn give_monthly_rate(&mut self, reader: &mut Reader, output: &mut Vec<u8>) -> Result<(), u8> {
        let year = reader.number(&REGISTER_YEAR)?;
        let month = reader.number(&MONTH)?;
        let rate = reader.number(&RATE)?;
        reader.end_record()?;
        self.register.store(year, month, rate)?;
        answer::monthly_rate(output, [year, month, rate]);
        Ok(())
    }

    fn give_pattern(&mut self, reader: &mut Reader, output: &mut Vec<u8>) -> Result<(), u8> {
        let letter = reader.letter()?;
        let year = reader.number(&YEAR)?;
        let mut cumulative = Cumulative::default();
        read_cumulative(reader, letter.ages(), &mut cumulative)?;
        let line = self.lines[letter.place()].if_declared()?;
        let discount = self.discounts[(year - YEAR.lowest) as usize].ok_or(9)?;
        if !line.takes_pattern(year) {
            return Err(10);
        }
        let published = publish(&cumulative, letter.ages(), discount)?;
        line.keep(year, published);
        answer::factors(output, letter, year, &published[..letter.ages() + 1]);
        Ok(())
    }

    fn close_year(&mut self, reader: &mut Reader, output: &mut Vec<u8>) -> Result<(), u8> {
        let letter = reader.letter()?;
        let year = reader.number(&YEAR)?;
        let mut rows = [Row::default(); 11];
        read_rows(reader, &mut rows[..letter.ages() + 1])?;
        let line = self.lines[letter.place()].if_declared()?;
        if year != line.last_pattern || year == line.last_closed {
            return Err(10);
        }
        let tax = line.close(letter, year, &rows)?;
        answer::tax(output, letter, year, &tax);
        Ok(())
    }

    fn sum(&mut self, reader: &mut Reader, output: &mut Vec<u8>) -> Result<(), u8> {
        let letter = reader.letter()?;
        reader.end_record()?;
        let line = self.lines[letter.place()].if_declared()?;
        answer::sum(output, letter, &line.totals);
        Ok(())
    }
}

impl Line {
    fn if_declared(&mut self) -> Result<&mut Line, u8> {
        if self.declared {
            Ok(self)
        } else {
            Err(8)
        }
    }

    fn takes_pattern(&self, year: u64) -> bool {
        let closed = self.last_closed == 0 || self.last_closed == self.last_pattern;
        self.last_pattern == 0 || (year == self.last_pattern + 1 && closed)
    }

    fn keep(&mut self, year: u64, published: Published) {
        if self.first_pattern == 0 {
            self.first_pattern = year;
        }
        self.last_pattern = year;
        self.patterns[(year % 10) as usize] = published;
    }

    /// Question 13, and then the year end of a line.
    fn close(&mut self, letter: Letter, year: u64, rows: &[Row; 11]) -> Result<Tax, u8> {
        let ages = letter.ages();
        let own = &self.patterns[(year % 10) as usize];
        let prior = rows[ages];
        let mut paid = prior.paid;
        let mut closing = prior.discounted(own[ages]);
        for (age, row) in rows[..ages].iter().enumerate() {
            let accident_year = year - age as u64;
            if row.gross() > 0 && accident_year < self.first_pattern {
                return Err(13);
            }
            paid += row.paid;
            closing += row.discounted(self.patterns[(accident_year % 10) as usize][age]);
        }
        let opening = self.opening;
        self.opening = closing;
        self.last_closed = year;
        let loss = paid + closing as i64 - opening as i64;
        self.totals.closed_years += 1;
        self.totals.paid += paid;
        self.totals.losses += loss;
        Ok(Tax {
            paid,
            opening,
            closing,
            loss,
        })
    }
}

fn sum_of_sixty(reader: &mut Reader) -> Result<u64, u8> {
    let mut sum = 0_u64;
    for _month in 0..60 {
        sum = sum.wrapping_add(reader.number(&RATE)?);
    }
    Ok(sum)
}

fn read_cumulative(
    reader: &mut Reader,
    ages: usize,
    cumulative: &mut Cumulative,
) -> Result<(), u8> {
    let pairs = cumulative.paid.iter_mut().zip(&mut cumulative.incurred);
    for (paid, incurred) in pairs.take(ages) {
        *paid = reader.number(&AMOUNT)?;
        *incurred = reader.number(&AMOUNT)?;
    }
    reader.end_record()
}

fn read_rows(reader: &mut Reader, rows: &mut [Row]) -> Result<(), u8> {
    for row in rows {
        row.paid = reader.signed_amount()?;
        row.unpaid = reader.number(&AMOUNT)?;
        row.tabular = reader.number(&AMOUNT)?;
    }
    reader.end_record()
}
