//! The discounting book of documents 01 and 02, written from these alone.
//!
//! A line of input goes through these files in this order: `run` cuts the
//! input into lines, `record` puts questions 1 to 6, `book` puts questions 7
//! to 14 and keeps the state, `rate`, `register`, `pattern`, `factor`, `reserve`
//! and `totals` compute, and `answer` writes the output line.
//!
//! `exact` holds whole numbers of any size for the bounds of demand 3.
//! `random`, `accepted_record`, `register_record`, `misread_record`,
//! `refused_record` and `stream` make random input, `whole_book` the inputs of the
//! speed comparison, and `stored_input` those that are stored with the proved
//! programs, which `input_text` helps to write; `largest_totals` and
//! `full_register` make two more.
//! `program` runs a program, and `comparison` sets its answers beside ours.
//! `explain` tells a person what each answer of a run means.

pub mod accepted_record;
pub mod answer;
pub mod book;
pub mod comparison;
pub mod exact;
pub mod explain;
pub mod factor;
pub mod full_register;
pub mod input_text;
pub mod kinds;
pub mod largest_totals;
pub mod misread_record;
pub mod pattern;
pub mod program;
pub mod question;
pub mod random;
pub mod rate;
pub mod record;
pub mod refused_record;
pub mod register;
pub mod register_record;
pub mod reserve;
pub mod run;
pub mod stored_input;
pub mod stream;
pub mod totals;
pub mod whole_book;
