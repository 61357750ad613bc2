//! A report as plain text.

use super::report::{Block, Column, Heading, Report, Side, Table};

/// No line is longer.
pub const WIDTH: usize = 100;

/// What parts two columns of a table.
const GAP: &str = "  ";

pub fn text(report: &Report) -> String {
    let mut lines = vec![report.notice.clone(), String::new()];
    lines.extend(wrapped("", &report.title));
    let mut before = None;
    for block in &report.blocks {
        if is_parted(before, block) {
            lines.push(String::new());
        }
        lines.extend(block_lines(block));
        before = Some(block);
    }
    lines.iter().map(|line| format!("{line}\n")).collect()
}

/// Does a blank line stand before a block? Not after a heading or a colon, and
/// not before a label that follows a label or a list.
fn is_parted(before: Option<&Block>, block: &Block) -> bool {
    match (before, block) {
        (Some(Block::Heading(_)), _) => false,
        (Some(Block::Labelled { .. } | Block::List(_)), Block::Labelled { .. }) => false,
        (_, Block::Plot(_)) => false,
        (Some(Block::Paragraph(text)), _) => !text.ends_with(':'),
        _ => true,
    }
}

/// A plot is for the page alone: its figures stand in the table before it.
fn block_lines(block: &Block) -> Vec<String> {
    match block {
        Block::Heading(heading) => heading_lines(heading),
        Block::Paragraph(text) => wrapped("", text),
        Block::Labelled { label, text } => wrapped(&format!("{label}: "), text),
        Block::List(items) => items.iter().flat_map(|item| wrapped("- ", item)).collect(),
        Block::Records(records) => record_lines(records),
        Block::Table(table) => table_lines(table),
        Block::Plot(_) => Vec::new(),
    }
}

fn heading_lines(heading: &Heading) -> Vec<String> {
    let mut lines = wrapped("", &heading.text);
    let longest = lines.iter().map(|line| length(line)).max();
    lines.insert(0, String::new());
    lines.push("-".repeat(longest.unwrap_or(0)));
    lines
}

fn record_lines(records: &[(usize, String)]) -> Vec<String> {
    let line = |(number, said): &(usize, String)| wrapped("- ", &format!("line {number}: {said}"));
    records.iter().flat_map(line).collect()
}

fn length(text: &str) -> usize {
    text.chars().count()
}

/// A text in lines, after a beginning under which the later lines are indented.
fn wrapped(beginning: &str, text: &str) -> Vec<String> {
    let indent = " ".repeat(length(beginning));
    let pieces = cut(text, WIDTH - length(beginning));
    let line = |(place, piece): (usize, String)| match place {
        0 => format!("{beginning}{piece}"),
        _ => format!("{indent}{piece}"),
    };
    let lines = pieces.into_iter().enumerate().map(line);
    lines.map(|line| line.trim_end().to_string()).collect()
}

/// A text that is too long cut at its blanks into pieces of at most that width;
/// a word that is longer is cut within.
fn cut(text: &str, width: usize) -> Vec<String> {
    if length(text) <= width {
        return vec![text.to_string()];
    }
    let mut pieces = vec![String::new()];
    for word in text.split(' ').flat_map(|word| short_parts(word, width)) {
        let Some(last) = pieces.last_mut() else {
            continue;
        };
        if last.is_empty() {
            *last = word;
        } else if length(last) + 1 + length(&word) <= width {
            *last += " ";
            *last += &word;
        } else {
            pieces.push(word);
        }
    }
    pieces
}

fn short_parts(word: &str, width: usize) -> Vec<String> {
    let characters: Vec<char> = word.chars().collect();
    let parts = characters.chunks(width.max(1));
    parts.map(|part| part.iter().collect()).collect()
}

fn table_lines(table: &Table) -> Vec<String> {
    let mut lines = wrapped("", &table.caption);
    let widths: Vec<usize> = (0..table.columns.len())
        .map(|place| column_width(table, place))
        .collect();
    for places in parts_of_table(&widths) {
        let columns: Vec<(usize, usize)> = places
            .into_iter()
            .map(|place| (place, widths[place]))
            .collect();
        lines.push(String::new());
        lines.extend(title_lines(table, &columns));
        lines.extend(table.rows.iter().map(|row| row_line(table, row, &columns)));
    }
    lines
}

/// A title may be cut at its blanks.
fn column_width(table: &Table, place: usize) -> usize {
    let words = table.columns[place].title.split(' ').map(length);
    let cells = table.rows.iter().filter_map(|row| row.get(place));
    words
        .chain(cells.map(|cell| length(cell)))
        .max()
        .unwrap_or(0)
}

/// The places of the columns that fit beside each other. A table that is too
/// wide is shown in parts, each with the first column.
fn parts_of_table(widths: &[usize]) -> Vec<Vec<usize>> {
    let mut parts = vec![vec![0]];
    let first_width = widths.first().copied().unwrap_or(0);
    let mut so_far = first_width;
    for (place, width) in widths.iter().enumerate().skip(1) {
        if so_far + GAP.len() + width > WIDTH {
            parts.push(vec![0]);
            so_far = first_width;
        }
        so_far += GAP.len() + width;
        if let Some(part) = parts.last_mut() {
            part.push(place);
        }
    }
    parts
}

/// The titles, each at the bottom of its column, and a rule.
fn title_lines(table: &Table, columns: &[(usize, usize)]) -> Vec<String> {
    let titles: Vec<Vec<String>> = columns
        .iter()
        .map(|(place, width)| cut(table.columns[*place].title, *width))
        .collect();
    let height = titles.iter().map(Vec::len).max().unwrap_or(0);
    let line = |number: usize| {
        let cells = titles.iter().map(|title| {
            let above = height - title.len();
            let piece = number.checked_sub(above).and_then(|piece| title.get(piece));
            piece.cloned().unwrap_or_default()
        });
        aligned(table, columns, &cells.collect::<Vec<_>>())
    };
    let mut lines: Vec<String> = (0..height).map(line).collect();
    let rules: Vec<String> = columns
        .iter()
        .map(|(_, width)| "-".repeat(*width))
        .collect();
    lines.push(rules.join(GAP));
    lines
}

fn row_line(table: &Table, row: &[String], columns: &[(usize, usize)]) -> String {
    let cells = columns.iter().map(|(place, _)| row.get(*place).cloned());
    let cells: Vec<String> = cells.map(Option::unwrap_or_default).collect();
    aligned(table, columns, &cells)
}

fn aligned(table: &Table, columns: &[(usize, usize)], cells: &[String]) -> String {
    let cells = columns.iter().zip(cells).map(|((place, width), cell)| {
        let Column { side, .. } = table.columns[*place];
        match side {
            Side::Left => format!("{cell:<width$}"),
            Side::Right => format!("{cell:>width$}"),
        }
    });
    let line = cells.collect::<Vec<_>>().join(GAP);
    line.trim_end().to_string()
}
