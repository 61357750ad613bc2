//! An explanation as blocks. It is made once and written twice, as text and as
//! a page, so that both say the same.

use super::plot::Plot;

pub struct Report {
    /// The first line of all.
    pub notice: String,
    pub title: String,
    pub blocks: Vec<Block>,
}

pub enum Block {
    Heading(Heading),
    Paragraph(String),
    /// A line that is shown as it stands, after a label: a record, an answer, a
    /// formula.
    Labelled {
        label: String,
        text: String,
    },
    List(Vec<String>),
    /// Records by the numbers of their lines, each with what is said of it.
    Records(Vec<(usize, String)>),
    Table(Table),
    Plot(Plot),
}

/// The heading of a record has the number of its line.
pub struct Heading {
    pub line_number: Option<usize>,
    pub is_refused: bool,
    pub text: String,
}

/// The first cell of a row names the row.
pub struct Table {
    pub caption: String,
    pub columns: Vec<Column>,
    pub rows: Vec<Vec<String>>,
}

#[derive(Clone, Copy)]
pub struct Column {
    pub title: &'static str,
    pub side: Side,
}

#[derive(Clone, Copy, PartialEq, Eq)]
pub enum Side {
    Left,
    Right,
}

/// A column of numbers.
pub fn numbers(title: &'static str) -> Column {
    let side = Side::Right;
    Column { title, side }
}

/// A column of words.
pub fn words(title: &'static str) -> Column {
    let side = Side::Left;
    Column { title, side }
}

pub fn paragraph(text: impl Into<String>) -> Block {
    Block::Paragraph(text.into())
}

pub fn labelled(label: impl Into<String>, text: impl Into<String>) -> Block {
    Block::Labelled {
        label: label.into(),
        text: text.into(),
    }
}
