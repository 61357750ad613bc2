//! The program's arguments and files.

use std::path::{Path, PathBuf};
use std::process::{Command, Output, Stdio};

use reference::explain::explain;
use reference::explain::page::page;
use reference::explain::text::text;

use crate::CLASS;

fn run(arguments: &[&str]) -> Output {
    let mut command = Command::new(env!("CARGO_BIN_EXE_explain"));
    command.args(arguments).stdin(Stdio::null());
    command.output().expect("explain runs")
}

fn message(output: &Output) -> String {
    String::from_utf8_lossy(&output.stderr).into_owned()
}

#[test]
fn wrong_arguments_get_a_usage_message_and_status_2() {
    let wrong: [&[&str]; 7] = [
        &["--html"],
        &["--help"],
        &["-x", CLASS],
        &[CLASS, CLASS],
        &["--html", "a.html", "--html", "b.html", CLASS],
        &["--html", "--html", CLASS],
        &[""],
    ];
    for arguments in wrong {
        let output = run(arguments);
        assert_eq!(output.status.code(), Some(2), "{arguments:?}");
        assert!(message(&output).starts_with("usage: explain [--html FILE] [RECORDS]\n"));
        assert!(output.stdout.is_empty());
    }
}

/// Without a file the records are standard input, which is empty here.
#[test]
fn the_text_goes_to_standard_output() {
    let class = std::fs::read(CLASS).expect("the class example");
    for (arguments, name, input) in [
        (vec![CLASS], CLASS, class.as_slice()),
        (vec![], "standard input", b""),
    ] {
        let output = run(&arguments);
        assert_eq!(output.status.code(), Some(0), "{}", message(&output));
        assert!(output.stdout == text(&explain(name, input)).as_bytes());
    }
}

#[test]
fn a_file_that_cannot_be_read_or_written_is_named() {
    for arguments in [
        vec!["no/such/records.txt"],
        vec!["--html", "no/such/page.html", CLASS],
    ] {
        let output = run(&arguments);
        assert_eq!(output.status.code(), Some(1), "{arguments:?}");
        let named = arguments
            .iter()
            .find(|text| text.starts_with("no/"))
            .expect("a name");
        assert!(message(&output).contains(named), "{}", message(&output));
        assert!(output.stdout.is_empty());
    }
}

/// A directory of a test's own, removed at its end.
struct Folder(PathBuf);

impl Folder {
    fn new(name: &str) -> Folder {
        let name = format!("explain.{name}.{}", std::process::id());
        let folder = std::env::temp_dir().join(name);
        std::fs::create_dir(&folder).expect("a new directory");
        Folder(folder)
    }

    fn file(&self, name: &str) -> String {
        self.0.join(name).display().to_string()
    }
}

impl Drop for Folder {
    fn drop(&mut self) {
        let _ = std::fs::remove_dir_all(&self.0);
    }
}

#[test]
fn the_page_is_written_and_named_and_may_be_written_again() {
    let folder = Folder::new("page");
    let file = folder.file("class.html");
    for _ in 0..2 {
        let output = run(&["--html", &file, CLASS]);
        assert_eq!(output.status.code(), Some(0), "{}", message(&output));
        let said = String::from_utf8_lossy(&output.stdout).into_owned();
        assert_eq!(said, format!("The page is {file}\n"));
    }
    let written = std::fs::read_to_string(&file).expect("the page");
    let class = std::fs::read(CLASS).expect("the class example");
    assert!(written == page(&explain(CLASS, &class)));
}

#[test]
fn records_are_not_overwritten_by_a_page() {
    let folder = Folder::new("records");
    let file = folder.file("class.txt");
    std::fs::copy(CLASS, Path::new(&file)).expect("a copy");
    for arguments in [vec!["--html", &file], vec!["--html", &file, &file]] {
        let output = run(&arguments);
        assert_eq!(output.status.code(), Some(1));
        assert!(message(&output).contains(&file));
    }
    let kept = std::fs::read(&file).expect("the records");
    assert!(kept == std::fs::read(CLASS).expect("the class example"));
}
