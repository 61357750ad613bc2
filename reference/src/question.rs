//! The fourteen questions put to a record. They are numbered as the documents
//! number them, which is not the order in which they are asked.

/// "A 'no' refuses with that question's number."
#[derive(Clone, Copy, Debug, PartialEq, Eq, PartialOrd, Ord)]
pub enum Question {
    /// "Has the line at most 1,024 bytes?", with another limit: "Make 418 the
    /// limit in question 1."
    LineLength = 1,
    /// "Is the first field, byte for byte, one of the four words?" SUM and MIDT
    /// join them: "New records' words, here and below, join question 2's."
    Word = 2,
    /// "But for RATE: is the second field a covered letter?" MIDT is not asked
    /// either: it "meets questions 1, 2 and 4 to 7".
    CoveredLetter = 3,
    /// "Is the count of fields right?"
    FieldCount = 4,
    /// "Is every number well written?"
    WellWritten = 5,
    /// "Is every number within its limits?"
    WithinLimits = 6,
    /// "LINE, RATE: is that line or that year's rate still to be given?" And
    /// "Question 7 also covers a month given twice."
    StillToBeGiven = 7,
    /// "PATT, YEAR: is the line declared?" It is asked of SUM too.
    LineDeclared = 8,
    /// "PATT: has the year a rate?"
    YearHasRate = 9,
    /// "PATT: is it the line's first pattern, or the year after its last one,
    /// that last one closed if any year is closed? YEAR: is it the year of the
    /// last pattern, not yet closed?"
    YearInTurn = 10,
    /// "PATT: is every incurred above 0 and no paid above its incurred?"
    PaidWithinIncurred = 11,
    /// "PATT: does no cumulative ratio fall from one age to the next?"
    NoRatioFalls = 12,
    /// "YEAR: has every age row with gross above 0 a kept pattern?"
    PatternKept = 13,
    /// "14 after question 7, when the short RATE lacks any of its sixty months"
    MonthsGiven = 14,
}

impl Question {
    pub fn number(self) -> u8 {
        self as u8
    }
}
