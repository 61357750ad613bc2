//! The input, read field by field: questions 1 to 6.

use crate::letter::Letter;

/// "Make 418 the limit in question 1."
const LONGEST_LINE: usize = 418;

const TAB: u8 = 9;

const LINE_END: u8 = 10;

/// No limit has more digits.
const MOST_DIGITS: usize = 12;

/// The limits of a kind of number.
pub struct Limits {
    pub lowest: u64,
    pub highest: u64,
}

pub const YEAR: Limits = limits(1_987, 2_099);
pub const REGISTER_YEAR: Limits = limits(1_980, 2_099);
pub const MONTH: Limits = limits(1, 12);
pub const RATE: Limits = limits(0, 2_500);
pub const OPENING: Limits = limits(0, 100_000_000_000);
pub const AMOUNT: Limits = limits(0, 10_000_000_000);

const fn limits(lowest: u64, highest: u64) -> Limits {
    Limits { lowest, highest }
}

/// The six kinds of record.
pub enum Word {
    Line,
    Rate,
    Pattern,
    Year,
    Sum,
    MonthlyRate,
}

/// What is left of the input. An error is the number of the question that was
/// answered no.
pub struct Reader<'a> {
    rest: &'a [u8],
    line_start: &'a [u8],
    badly_written: bool,
    past_limits: bool,
}

impl<'a> Reader<'a> {
    pub fn new(input: &'a [u8]) -> Reader<'a> {
        Reader {
            rest: input,
            line_start: input,
            badly_written: false,
            past_limits: false,
        }
    }

    /// Whether there is another line.
    pub fn begin_line(&mut self) -> bool {
        self.line_start = self.rest;
        self.badly_written = false;
        self.past_limits = false;
        !self.rest.is_empty()
    }

    /// Steps over the byte 10 of a line that was read to its end.
    pub fn end_line(&mut self) {
        if let [LINE_END, after @ ..] = self.rest {
            self.rest = after;
        }
    }

    /// Goes to the end of a refused line and gives the number of its refusal.
    /// A line past the limit always comes here: "No accepted record can have
    /// more than 418 bytes".
    pub fn skip_line(&mut self, question: u8) -> u8 {
        let to_end = self.rest.iter().position(|byte| *byte == LINE_END);
        self.rest = &self.rest[to_end.unwrap_or(self.rest.len())..];
        if self.line_start.len() - self.rest.len() > LONGEST_LINE {
            1
        } else {
            question
        }
    }

    /// The first field.
    pub fn word(&mut self) -> Result<Word, u8> {
        let (word, after) = match self.rest {
            [b'L', b'I', b'N', b'E', after @ ..] => (Word::Line, after),
            [b'R', b'A', b'T', b'E', after @ ..] => (Word::Rate, after),
            [b'P', b'A', b'T', b'T', after @ ..] => (Word::Pattern, after),
            [b'Y', b'E', b'A', b'R', after @ ..] => (Word::Year, after),
            [b'M', b'I', b'D', b'T', after @ ..] => (Word::MonthlyRate, after),
            [b'S', b'U', b'M', after @ ..] => (Word::Sum, after),
            _ => return Err(2),
        };
        self.rest = after;
        if self.at_field_end() {
            Ok(word)
        } else {
            Err(2)
        }
    }

    /// The second field, if it is a covered letter.
    pub fn letter(&mut self) -> Result<Letter, u8> {
        let [TAB, byte, after @ ..] = self.rest else {
            return Err(3);
        };
        let letter = Letter::covered(*byte).ok_or(3)?;
        self.rest = after;
        if self.at_field_end() {
            Ok(letter)
        } else {
            Err(3)
        }
    }

    /// The next field, a number. One that is badly written or past its limits
    /// is remembered till the count of fields is known.
    pub fn number(&mut self, limits: &Limits) -> Result<u64, u8> {
        self.begin_field()?;
        let number = self.digits();
        self.past_limits |= number < limits.lowest || number > limits.highest;
        Ok(number)
    }

    /// The next field, an amount before which a minus sign may stand.
    pub fn signed_amount(&mut self) -> Result<i64, u8> {
        self.begin_field()?;
        let [b'-', after @ ..] = self.rest else {
            let amount = self.digits();
            self.past_limits |= amount > AMOUNT.highest;
            return Ok(amount as i64);
        };
        self.rest = after;
        self.badly_written |= after.first() == Some(&b'0');
        let size = self.digits();
        self.past_limits |= size > AMOUNT.highest;
        Ok((size as i64).wrapping_neg())
    }

    /// Whether another field follows in this line.
    pub fn has_field(&self) -> bool {
        self.rest.first() == Some(&TAB)
    }

    /// The end of the record: questions 4, 5 and 6, in this order.
    pub fn end_record(&self) -> Result<(), u8> {
        if self.has_field() {
            Err(4)
        } else if self.badly_written {
            Err(5)
        } else if self.past_limits {
            Err(6)
        } else {
            Ok(())
        }
    }

    /// A field ends with a tab, with its line or with the input.
    fn at_field_end(&self) -> bool {
        matches!(self.rest, [] | [TAB | LINE_END, ..])
    }

    /// Steps over the tab before a field.
    fn begin_field(&mut self) -> Result<(), u8> {
        let [TAB, after @ ..] = self.rest else {
            return Err(4);
        };
        self.rest = after;
        Ok(())
    }

    /// The digits up to the end of the field.
    fn digits(&mut self) -> u64 {
        let field = self.rest;
        let mut rest = field;
        let mut number = 0_u64;
        while let [digit @ b'0'..=b'9', after @ ..] = rest {
            number = number
                .wrapping_mul(10)
                .wrapping_add(u64::from(digit - b'0'));
            rest = after;
        }
        let length = field.len() - rest.len();
        self.badly_written |= length == 0 || (length > 1 && field[0] == b'0');
        self.past_limits |= length > MOST_DIGITS;
        self.rest = rest;
        if !self.at_field_end() {
            self.skip_field();
        }
        number
    }

    /// Goes to the end of a field that is no number.
    fn skip_field(&mut self) {
        self.badly_written = true;
        while !self.at_field_end() {
            self.rest = &self.rest[1..];
        }
    }
}
