//! The page needs nothing from outside, prints, and can be read by all.

use reference::explain::explain;
use reference::explain::page::page;
use reference::stored_input::stored_input;

use crate::CLASS;

/// The pages of a class example and of inputs with every answer and every
/// refusal.
fn pages() -> Vec<String> {
    let class = std::fs::read(CLASS).expect("the class example");
    let names = ["book", "test_exhibits", "test_years", "test_edges"];
    let stored = names.map(|name| stored_input(name).expect("a program's name"));
    let inputs = stored.into_iter().chain([class]);
    inputs
        .map(|input| page(&explain("records", &input)))
        .collect()
}

/// What would take something from elsewhere.
const OUTSIDE: [&str; 9] = [
    "http:", "https:", "//", "src=", "url(", "@import", "<link", "<script", "<iframe",
];

#[test]
fn the_page_needs_nothing_from_outside() {
    for page in pages() {
        let found = OUTSIDE.iter().find(|part| page.contains(*part));
        assert_eq!(found, None);
    }
}

/// Every link leads to a section of the page.
#[test]
fn every_link_stays_in_the_page() {
    for page in pages() {
        let links = page.split("href=\"").skip(1);
        let mut names = links.filter_map(|link| link.split('"').next());
        let has_section = |name: &str| {
            let section = format!("<section id=\"{}\">", name.trim_start_matches('#'));
            name.starts_with("#line-") && page.contains(&section)
        };
        assert!(names.all(has_section));
    }
}

/// Does a rule of a style give a width that is not a part of the screen's?
fn has_fixed_width(rule: &str) -> bool {
    let mut declarations = rule.split(['{', ';']).map(str::trim);
    declarations.any(|text| text.starts_with("width:") && text != "width: 100%")
}

#[test]
fn the_page_has_a_print_style_and_no_fixed_width() {
    for page in pages() {
        let style = page.split("<style>").nth(1).expect("a style");
        let (style, body) = style.split_once("</style>").expect("its end");
        let (_, print) = style.split_once("@media print {").expect("a print style");
        assert!(print.contains("break-after: avoid") && print.contains("break-inside: avoid"));
        assert!(!style.split('}').any(has_fixed_width));
        assert!(!body.contains(" width=\"") && !body.contains("style=\""));
    }
}

#[test]
fn the_page_can_be_read_without_sight() {
    for page in pages() {
        assert!(page.starts_with("<!DOCTYPE html>\n<html lang=\"en\">"));
        assert!(page.contains("<meta charset=\"utf-8\">") && page.contains("name=\"viewport\""));
        let count = |part: &str| page.matches(part).count();
        assert_eq!(count("<caption>"), count("<table>"));
        assert_eq!(count("<thead>"), count("<table>"));
        let scopes = count("<th scope=\"col\"") + count("<th scope=\"row\"");
        assert_eq!(scopes, count("<th>") + count("<th "));
        assert_eq!(count("role=\"img\""), count("<svg "));
        assert_eq!(count("<title>"), 1 + count("<svg "));
    }
}

/// The tags that are still open after another one.
fn after_tag<'a>(mut open: Vec<&'a str>, tag: &'a str) -> Vec<&'a str> {
    let mut names = tag.split([' ', '/']).filter(|name| !name.is_empty());
    let name = names.next().unwrap_or(tag);
    if tag.starts_with('/') {
        assert_eq!(open.pop(), Some(name));
    } else if !tag.ends_with('/') && !["!DOCTYPE", "meta"].contains(&name) {
        open.push(name);
    }
    open
}

/// What is opened is closed, in order.
#[test]
fn the_page_is_well_formed() {
    for page in pages() {
        let parts = page.split('<').skip(1);
        let tags = parts.filter_map(|part| part.split('>').next());
        let open = tags.fold(Vec::new(), after_tag);
        assert!(open.is_empty(), "{open:?}");
    }
}

#[test]
fn what_is_in_a_record_is_not_taken_for_html() {
    let page = page(&explain("<records>", b"<b>\t&amp;\t\"'\n"));
    assert!(page.contains("<code>&lt;b&gt; | &amp;amp; | &quot;&#39;</code>"));
    assert!(page.contains("<h1>The records of &lt;records&gt;, explained</h1>"));
    assert!(!page.contains("<b>"));
}
