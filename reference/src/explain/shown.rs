//! How numbers and bytes are shown to a person.

/// A whole number with thousands separators.
pub fn thousands(number: impl ToString) -> String {
    let text = number.to_string();
    let digits = text.trim_start_matches('-');
    let mut grouped = text[..text.len() - digits.len()].to_string();
    for (place, digit) in digits.chars().enumerate() {
        if place > 0 && (digits.len() - place).is_multiple_of(3) {
            grouped.push(',');
        }
        grouped.push(digit);
    }
    grouped
}

/// A number of units of the last of so many decimals.
pub fn decimal(units: u64, decimals: u32) -> String {
    let one = 10_u64.pow(decimals);
    let width = decimals as usize;
    format!("{}.{:0width$}", thousands(units / one), units % one)
}

/// A rate, which is in hundredths of a percent.
pub fn percent(rate: u64) -> String {
    format!("{} percent", decimal(rate, 2))
}

/// A number of things, with their name.
pub fn counted(number: usize, name: &str) -> String {
    let plural = if number == 1 { "" } else { "s" };
    format!("{} {name}{plural}", thousands(number))
}

/// The text with its first letter large.
pub fn capitalized(text: &str) -> String {
    let mut characters = text.chars();
    let first = characters.next().map(|first| first.to_ascii_uppercase());
    first.into_iter().chain(characters).collect()
}

/// A number that is taken away from another: in brackets if it is below 0.
pub fn taken_away(number: i128) -> String {
    if number < 0 {
        format!("({})", thousands(number))
    } else {
        thousands(number)
    }
}

/// The hint at a carriage return at the end of a record.
pub const WINDOWS_LINE_ENDS: &str = "the file has Windows line ends: save it with Unix line ends";

/// What stands for a byte: itself, if it is printable ASCII.
fn escaped_byte(byte: u8) -> String {
    match byte {
        b'\\' => "\\\\".to_string(),
        b'\t' => "\\t".to_string(),
        b'\r' => "\\r".to_string(),
        b' '..=b'~' => char::from(byte).to_string(),
        _ => format!("\\x{byte:02x}"),
    }
}

/// Bytes, each as `shown`, in at most so many characters, and whether they are
/// all there.
fn shown_within(bytes: &[u8], most: usize, shown: fn(u8) -> String) -> (String, bool) {
    let mut text = String::new();
    for byte in bytes {
        let next = shown(*byte);
        if text.len() + next.len() > most {
            return (text, false);
        }
        text += &next;
    }
    (text, true)
}

pub fn escaped_within(bytes: &[u8], most: usize) -> (String, bool) {
    shown_within(bytes, most, escaped_byte)
}

/// What stands between two fields of a record that is shown.
const FIELD_MARK: &str = " | ";

/// A record is shown in so many characters at most, and what is left out is
/// counted in some more.
const LONGEST_RECORD: usize = 54;

/// A record with a stroke for each tab, its first fields if it is long.
pub fn shown_record(line: &[u8]) -> String {
    if line.is_empty() {
        return "(an empty line)".to_string();
    }
    let byte_or_mark = |byte: u8| match byte {
        b'\t' => FIELD_MARK.to_string(),
        _ => escaped_byte(byte),
    };
    let (mut text, is_whole) = shown_within(line, LONGEST_RECORD, byte_or_mark);
    if is_whole {
        return text;
    }
    // A number is not cut in two.
    let last_mark = text.rfind(FIELD_MARK).unwrap_or(0);
    if last_mark > LONGEST_RECORD / 2 {
        text.truncate(last_mark);
    }
    let tabs = line.iter().filter(|byte| **byte == b'\t').count();
    let fields = counted(tabs + 1, "field");
    format!("{text} .. ({fields}, {})", counted(line.len(), "byte"))
}

/// A field's text is shown in so many characters at most.
const LONGEST_QUOTE: usize = 30;

/// A field between quotes, shortened if it is long.
pub fn quoted(field: &[u8]) -> String {
    match escaped_within(field, LONGEST_QUOTE) {
        (text, true) => format!("'{text}'"),
        (text, false) => format!("'{text}' .. ({})", counted(field.len(), "byte")),
    }
}
