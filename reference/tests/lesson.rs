//! The exercises of `docs/WHY.md`: the records of each get the answers that
//! stand after them.

mod common;

use common::{output_of, repeated};

const LESSON: &str = include_str!("../../docs/WHY.md");

/// The fenced blocks of the text, each with its lines.
fn blocks() -> Vec<Vec<&'static str>> {
    let parts = LESSON.split("\n```").skip(1).step_by(2);
    parts.map(|part| part.lines().skip(1).collect()).collect()
}

/// A record as the shell writes it: `$(sixty 725)` is a rate sixty times.
fn written(record: &str) -> String {
    let Some((before, rate)) = record.split_once("$(sixty ") else {
        return record.to_string();
    };
    format!("{before}{}", repeated(rate.trim_end_matches(')'), 60))
}

#[test]
fn every_exercise_gets_the_answers_that_are_shown() {
    let blocks = blocks();
    let mut exercises = 0;
    for pair in blocks.windows(2) {
        let [first, records @ .., last] = pair[0].as_slice() else {
            continue;
        };
        if (*first, *last) == ("book <<RECORDS", "RECORDS") {
            let records: Vec<String> = records.iter().map(|record| written(record)).collect();
            let records: Vec<&str> = records.iter().map(String::as_str).collect();
            assert_eq!(output_of(&records), pair[1]);
            exercises += 1;
        }
    }
    assert_eq!(exercises, LESSON.matches("book <<RECORDS").count());
}
