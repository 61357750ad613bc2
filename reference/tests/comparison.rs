//! The comparison of programs, tried on `plain_book` and on a program that only
//! copies its input.

use std::path::Path;

use reference::comparison::{difference, first_difference, special_inputs, Difference, Pieces};
use reference::stream::random_stream;

const PLAIN: &str = env!("CARGO_BIN_EXE_plain_book");

#[test]
fn plain_book_agrees_on_the_special_inputs() {
    for (name, input) in special_inputs() {
        for pieces in [Pieces::Whole, Pieces::Random(3)] {
            let found = difference(Path::new(PLAIN), &input, pieces).expect("it runs");
            assert_eq!(found, None, "{name}");
        }
    }
}

#[test]
fn plain_book_agrees_in_pieces() {
    let stream = random_stream(50, 150);
    for pieces in [Pieces::SingleBytes, Pieces::Random(4), Pieces::Random(5)] {
        let found = difference(Path::new(PLAIN), &stream, pieces).expect("it runs");
        assert_eq!(found, None);
    }
}

#[test]
fn a_program_that_copies_its_input_differs() {
    let found = difference(
        Path::new("/bin/cat"),
        b"LINE\tA\t1\nLINE\tA\t1\n",
        Pieces::Whole,
    );
    let found = found.expect("it runs").expect("a difference");
    assert_eq!(found.line, 2);
    assert_eq!(found.ours, "\"NO\\t7\\n\"");
    assert_eq!(found.theirs, "\"LINE\\tA\\t1\\n\"");
}

#[test]
fn the_first_difference_may_be_a_missing_line() {
    let expected = Difference {
        line: 2,
        ours: "\"b\\n\"".to_string(),
        theirs: "nothing".to_string(),
    };
    assert_eq!(first_difference(b"a\nb\n", b"a\n"), Some(expected));
    assert_eq!(first_difference(b"a\nb\n", b"a\nb\n"), None);
}

#[test]
fn pieces_make_up_the_input() {
    let stream = random_stream(51, 300);
    for pieces in [Pieces::Whole, Pieces::SingleBytes, Pieces::Random(6)] {
        assert_eq!(pieces.of(&stream).concat(), stream);
    }
    assert_eq!(Pieces::SingleBytes.of(&stream).len(), stream.len());
    assert!(Pieces::Random(6).of(&stream).len() > 10);
}
