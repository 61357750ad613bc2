//! A report as one page of HTML that needs nothing from outside.

use super::plot::Plot;
use super::report::{Block, Column, Heading, Report, Side, Table};

const STYLE: &str = include_str!("page.css");

/// How every page begins.
pub const BEGINNING: &str = "<!DOCTYPE html>\n<html lang=\"en\">\n";

pub fn page(report: &Report) -> String {
    let title = escaped(&report.title);
    let notice = escaped(&report.notice);
    let mut page = format!(
        "{BEGINNING}<head>\n<meta charset=\"utf-8\">\n\
         <meta name=\"viewport\" content=\"width=device-width, initial-scale=1\">\n\
         <title>{title}</title>\n<style>\n{STYLE}</style>\n</head>\n<body>\n\
         <p class=\"notice\">{notice}</p>\n<main>\n<h1>{title}</h1>\n<section>\n"
    );
    for block in &report.blocks {
        page += &block_html(block);
    }
    page + "</section>\n</main>\n</body>\n</html>\n"
}

/// Text in which nothing is taken for HTML.
fn escaped(text: &str) -> String {
    let mut html = String::new();
    for character in text.chars() {
        match character {
            '&' => html += "&amp;",
            '<' => html += "&lt;",
            '>' => html += "&gt;",
            '"' => html += "&quot;",
            '\'' => html += "&#39;",
            _ => html.push(character),
        }
    }
    html
}

fn block_html(block: &Block) -> String {
    match block {
        Block::Heading(heading) => heading_html(heading),
        Block::Paragraph(text) => format!("<p{}>{}</p>\n", class_of(text), escaped(text)),
        Block::Labelled { label, text } => labelled_html(label, text),
        Block::List(items) => {
            let items = items
                .iter()
                .map(|item| format!("<li>{}</li>\n", escaped(item)));
            format!("<ul>\n{}</ul>\n", items.collect::<String>())
        }
        Block::Records(records) => records_html(records),
        Block::Table(table) => table_html(table),
        Block::Plot(plot) => plot_html(plot),
    }
}

/// What ends in a colon stays with what follows.
fn class_of(text: &str) -> &'static str {
    if text.ends_with(':') {
        " class=\"lead\""
    } else {
        ""
    }
}

/// A heading begins a section.
fn heading_html(heading: &Heading) -> String {
    let id = heading
        .line_number
        .map(|number| format!(" id=\"line-{number}\""));
    let id = id.unwrap_or_default();
    let class = if heading.is_refused {
        " class=\"refused\""
    } else {
        ""
    };
    let text = escaped(&heading.text);
    format!("</section>\n<section{id}>\n<h2{class}>{text}</h2>\n")
}

fn labelled_html(label: &str, text: &str) -> String {
    let (label, text) = (escaped(label), escaped(text));
    format!("<p class=\"labelled\"><span>{label}:</span> <code>{text}</code></p>\n")
}

/// Each record leads to its section.
fn records_html(records: &[(usize, String)]) -> String {
    let item = |(number, said): &(usize, String)| {
        let said = escaped(said);
        format!("<li><a href=\"#line-{number}\">line {number}</a>: {said}</li>\n")
    };
    let items = records.iter().map(item);
    format!("<ul>\n{}</ul>\n", items.collect::<String>())
}

/// The box of a table scrolls where the screen is narrow.
fn table_html(table: &Table) -> String {
    let caption = escaped(&table.caption);
    let name = caption.split(". ").next().unwrap_or_default();
    let titles = table.columns.iter().map(|column| {
        let title = escaped(column.title);
        format!("<th scope=\"col\"{}>{title}</th>", side_class(column))
    });
    let titles: String = titles.collect();
    let rows = table.rows.iter().map(|row| row_html(table, row));
    let rows: String = rows.collect();
    format!(
        "<div class=\"wide\" role=\"region\" tabindex=\"0\" aria-label=\"{name}\">\n<table>\n\
         <caption>{caption}</caption>\n<thead>\n<tr>{titles}</tr>\n</thead>\n<tbody>\n{rows}\
         </tbody>\n</table>\n</div>\n"
    )
}

fn row_html(table: &Table, row: &[String]) -> String {
    let cells = table.columns.iter().zip(row).enumerate();
    let cells = cells.map(|(place, (column, cell))| {
        let (class, cell) = (side_class(column), escaped(cell));
        match place {
            0 => format!("<th scope=\"row\"{class}>{cell}</th>"),
            _ => format!("<td{class}>{cell}</td>"),
        }
    });
    format!("<tr>{}</tr>\n", cells.collect::<String>())
}

fn side_class(column: &Column) -> &'static str {
    match column.side {
        Side::Left => " class=\"left\"",
        Side::Right => "",
    }
}

fn plot_html(plot: &Plot) -> String {
    let title = escaped(&plot.title);
    format!(
        "<figure>\n<div class=\"wide\" role=\"region\" tabindex=\"0\" aria-label=\"{title}\">\n{}\n\
         </div>\n<figcaption>{title}. A hollow point: nothing is unpaid, and the factor is H.\
         </figcaption>\n</figure>\n",
        plot.svg()
    )
}
