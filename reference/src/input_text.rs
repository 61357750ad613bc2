//! Records written for readers, with spaces for tabs.

/// The bytes of a record written with spaces for tabs.
pub fn line(text: &str) -> Vec<u8> {
    text.replace(' ', "\t").into_bytes()
}

/// Lines, each ended with byte 10.
pub fn ended_lines<T: AsRef<[u8]>>(lines: impl IntoIterator<Item = T>) -> Vec<u8> {
    let mut input = Vec::new();
    for line in lines {
        input.extend(line.as_ref());
        input.push(b'\n');
    }
    input
}

/// Records written with spaces for tabs, each ended with byte 10.
pub fn ended_records<T: AsRef<str>>(records: impl IntoIterator<Item = T>) -> Vec<u8> {
    ended_lines(records.into_iter().map(|record| line(record.as_ref())))
}

/// One value so many times, parted by spaces.
pub fn repeated(value: &str, times: usize) -> String {
    vec![value; times].join(" ")
}

/// A RATE whose sixty rates are equal.
pub fn rate(year: u64, rate: u64) -> String {
    format!("RATE {year} {}", repeated(&rate.to_string(), 60))
}

/// A PATT whose ages all have the same paid and incurred.
pub fn flat_pattern(letter: char, year: u64, paid_and_incurred: &str) -> String {
    let ages = if "IJKLST".contains(letter) { 2 } else { 10 };
    format!("PATT {letter} {year} {}", repeated(paid_and_incurred, ages))
}
