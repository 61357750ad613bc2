//! "A run of the book's program" of document 01, byte for byte.

use std::io::Write;
use std::process::{Command, Stdio};

use reference::run::run;

const OUTPUT: &str = "LINE\tJ\t0\n\
    RATE\t2015\t2100\n\
    FACT\tJ\t2015\t864496\t830203\t909091\n\
    TAX\tJ\t2015\t50\t0\t43\t93\n\
    NO\t10\n\
    RATE\t2016\t2100\n\
    FACT\tJ\t2016\t864496\t830203\t909091\n\
    TAX\tJ\t2016\t40\t43\t8\t5\n\
    DONE\t7\t1\n";

fn input() -> String {
    let sixty = ["2100"; 60].join("\t");
    [
        "LINE\tJ\t0\n".to_string(),
        format!("RATE\t2015\t{sixty}\n"),
        "PATT\tJ\t2015\t50\t100\t90\t100\n".to_string(),
        "YEAR\tJ\t2015\t50\t50\t0\t0\t0\t0\t0\t0\t0\n".to_string(),
        "YEAR\tJ\t2015\t50\t50\t0\t0\t0\t0\t0\t0\t0\n".to_string(),
        format!("RATE\t2016\t{sixty}\n"),
        "PATT\tJ\t2016\t50\t100\t90\t100\n".to_string(),
        "YEAR\tJ\t2016\t0\t0\t0\t40\t10\t0\t0\t0\t0\n".to_string(),
    ]
    .concat()
}

#[test]
fn the_library_answers_as_document_01_prints() {
    assert_eq!(run(input().as_bytes()), OUTPUT.as_bytes());
}

#[test]
fn the_program_answers_as_document_01_prints() {
    let mut program = Command::new(env!("CARGO_BIN_EXE_reference"))
        .stdin(Stdio::piped())
        .stdout(Stdio::piped())
        .spawn()
        .expect("the program starts");
    let mut standard_input = program.stdin.take().expect("a pipe");
    standard_input
        .write_all(input().as_bytes())
        .expect("the program reads");
    drop(standard_input);
    let result = program.wait_with_output().expect("the program ends");
    assert!(result.status.success());
    assert_eq!(result.stdout, OUTPUT.as_bytes());
}

#[test]
fn the_last_line_may_lack_its_byte_10() {
    let input = input();
    assert_eq!(run(input.trim_end().as_bytes()), OUTPUT.as_bytes());
}
