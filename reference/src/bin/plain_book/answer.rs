//! The answers, put at the end of the output.

use crate::letter::Letter;

/// "00" to "99".
static PAIRS: [u8; 200] = pairs();

const fn pairs() -> [u8; 200] {
    let mut pairs = [0; 200];
    let mut number = 0;
    while number < 100 {
        pairs[2 * number] = b'0' + (number / 10) as u8;
        pairs[2 * number + 1] = b'0' + (number % 10) as u8;
        number += 1;
    }
    pairs
}

pub fn line(output: &mut Vec<u8>, letter: Letter, opening: u64) {
    output.extend_from_slice(&[b'L', b'I', b'N', b'E', b'\t', letter.byte()]);
    put_number(output, opening);
    output.push(b'\n');
}

pub fn rate(output: &mut Vec<u8>, year: u64, rate: u64) {
    output.extend_from_slice(b"RATE");
    put_number(output, year);
    put_number(output, rate);
    output.push(b'\n');
}

pub fn monthly_rate(output: &mut Vec<u8>, fields: [u64; 3]) {
    output.extend_from_slice(b"MIDT");
    for field in fields {
        put_number(output, field);
    }
    output.push(b'\n');
}

/// The factors of the ages, the composite last.
pub fn factors(output: &mut Vec<u8>, letter: Letter, year: u64, published: &[u32]) {
    output.extend_from_slice(&[b'F', b'A', b'C', b'T', b'\t', letter.byte()]);
    put_number(output, year);
    for factor in published {
        put_number(output, u64::from(*factor));
    }
    output.push(b'\n');
}

/// The figures of a TAX answer.
pub struct Tax {
    pub paid: i64,
    pub opening: u64,
    pub closing: u64,
    pub loss: i64,
}

pub fn tax(output: &mut Vec<u8>, letter: Letter, year: u64, tax: &Tax) {
    output.extend_from_slice(&[b'T', b'A', b'X', b'\t', letter.byte()]);
    put_number(output, year);
    put_signed(output, tax.paid);
    put_number(output, tax.opening);
    put_number(output, tax.closing);
    put_signed(output, tax.loss);
    output.push(b'\n');
}

/// A line's closed years, all their paid and all their losses.
#[derive(Clone, Copy)]
pub struct Totals {
    pub closed_years: u64,
    pub paid: i64,
    pub losses: i64,
}

pub fn sum(output: &mut Vec<u8>, letter: Letter, totals: &Totals) {
    output.extend_from_slice(&[b'S', b'U', b'M', b'\t', letter.byte()]);
    put_number(output, totals.closed_years);
    put_signed(output, totals.paid);
    put_signed(output, totals.losses);
    output.push(b'\n');
}

pub fn no(output: &mut Vec<u8>, question: u8) {
    output.extend_from_slice(b"NO");
    put_number(output, u64::from(question));
    output.push(b'\n');
}

pub fn done(output: &mut Vec<u8>, accepted: u64, refused: u64) {
    output.extend_from_slice(b"DONE");
    put_number(output, accepted);
    put_number(output, refused);
    output.push(b'\n');
}

fn put_signed(output: &mut Vec<u8>, number: i64) {
    if number < 0 {
        put(output, b"\t-", number.unsigned_abs());
    } else {
        put_number(output, number.unsigned_abs());
    }
}

/// A tab and a number.
fn put_number(output: &mut Vec<u8>, number: u64) {
    put(output, b"\t", number);
}

/// What stands before a number, and its digits, two at a time from the last.
fn put(output: &mut Vec<u8>, before: &[u8], number: u64) {
    output.extend_from_slice(before);
    let mut text = [0; 20];
    let mut start = text.len();
    let mut rest = number;
    while rest >= 10 {
        let pair = 2 * (rest % 100) as usize;
        rest /= 100;
        start -= 2;
        text[start..start + 2].copy_from_slice(&PAIRS[pair..pair + 2]);
    }
    if rest > 0 || start == text.len() {
        start -= 1;
        text[start] = b'0' + rest as u8;
    }
    output.extend_from_slice(&text[start..]);
}
