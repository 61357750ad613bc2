//! The documents say what is in the tree: every path, theorem, definition,
//! must-fail edit, function, test and line of a stored run that they name is
//! there, and so is what a link leads to. The forms are those of CHECKLIST's
//! first paragraph.

mod citations;
mod comments;
mod counts;
mod functions;
mod links;
mod stored_lines;
mod text;
mod tree;

use text::Line;

/// The documents that are held to the tree.
const DOCUMENTS: [&str; 9] = [
    "README.md",
    "CONTRIBUTING.md",
    "docs/ARCHITECTURE.md",
    "docs/CHECKLIST.md",
    "docs/DECISIONS.md",
    "docs/MANUAL.md",
    "docs/SPEED.md",
    "docs/TRUST.md",
    "docs/WHY.md",
];

/// Fails with all that a check finds wrong in the documents.
fn assert_right(check: fn(&Line) -> Vec<String>) {
    let mut wrong = Vec::new();
    for document in DOCUMENTS {
        for line in text::lines(document) {
            let found = check(&line).into_iter();
            wrong.extend(found.map(|what| format!("{document}:{}: {what}", line.number)));
        }
    }
    assert!(wrong.is_empty(), "\n{}\n", wrong.join("\n"));
}

#[test]
fn every_path_and_every_edit_is_there() {
    assert_right(citations::paths);
}

#[test]
fn every_name_is_declared_in_its_file() {
    assert_right(citations::names);
}

#[test]
fn every_test_is_there() {
    assert_right(citations::tests);
}

#[test]
fn every_cited_line_of_a_stored_run_is_what_is_quoted() {
    assert_right(stored_lines::quotes);
}

#[test]
fn every_listed_function_is_public_and_has_two_edits() {
    assert_right(functions::rows);
}

#[test]
fn every_count_is_that_of_the_tree() {
    assert_right(counts::rows);
}

#[test]
fn every_link_leads_to_a_file_and_a_heading() {
    let faults = links::faults();
    assert!(faults.is_empty(), "\n{}\n", faults.join("\n"));
}

/// A newcomer first runs the class example, then meets a refusal, then closes a
/// year.
#[test]
fn the_readme_leads_from_the_class_to_a_refusal_to_a_year_end() {
    let readme = tree::read(&tree::root().join("README.md"));
    let places = [
        "examples/class.md",
        "docs/MANUAL.md#no-11",
        "examples/year_end.md",
    ]
    .map(|target| readme.find(&format!("]({target})")));
    assert!(
        places.iter().all(Option::is_some) && places.is_sorted(),
        "{places:?}"
    );
}

#[test]
fn every_public_function_is_listed() {
    let missing = functions::missing(&text::lines("docs/CHECKLIST.md"));
    let wrong = missing.join("\n");
    assert!(
        wrong.is_empty(),
        "docs/CHECKLIST.md does not list\n{wrong}\n"
    );
}

#[test]
fn no_comment_is_long() {
    let long = comments::long();
    assert!(long.is_empty(), "\n{}\n", long.join("\n"));
}

/// The first line of an edit says what the wrong program does.
#[test]
fn every_edit_begins_with_a_comment() {
    for name in tree::crates() {
        for path in tree::files(&format!("crates/{name}/must-fail")) {
            let begins = tree::read(&path).starts_with("# ");
            assert!(begins, "{} does not begin with '# '", tree::shown(&path));
        }
    }
}
