//! The lines of Schedule P by their letters.

use crate::kinds::{Letter, LineKind};

/// What a line covers.
fn coverage(letter: Letter) -> &'static str {
    match letter.character() {
        'A' => "homeowners and farmowners",
        'B' => "private passenger auto liability",
        'C' => "commercial auto liability",
        'D' => "workers' compensation",
        'E' => "commercial multiple peril",
        'F' => "medical malpractice",
        'G' => "special liability",
        'H' => "other liability",
        'R' => "products liability",
        'I' => "special property",
        'J' => "auto physical damage",
        'K' => "fidelity and surety",
        'L' => "other, with credit, accident and health",
        'S' => "financial and mortgage guaranty",
        'T' => "warranty",
        _ => "a covered line",
    }
}

pub fn kind_name(kind: LineKind) -> &'static str {
    match kind {
        LineKind::TenYear => "ten-year",
        LineKind::TwoYear => "two-year",
    }
}

/// "line J (auto physical damage, a two-year line)"
pub fn described(letter: Letter) -> String {
    format!(
        "line {} ({}, a {} line)",
        letter.character(),
        coverage(letter),
        kind_name(letter.kind())
    )
}
