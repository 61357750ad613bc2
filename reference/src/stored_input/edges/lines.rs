//! Words, fields, letters and openings. Afterwards every line but T is
//! declared, with its own opening.

use super::{edge, edge_of_bytes, table, Edge};

pub fn edges() -> Vec<Edge> {
    let mut edges = words();
    edges.extend(empty_lines_and_byte_13());
    edges.extend(openings());
    for letter in 'A'..='Z' {
        edges.extend(of_letter(letter));
    }
    edges
}

fn words() -> Vec<Edge> {
    let mut edges = table(&[
        ("LINE", "NO 3"),
        ("PATT", "NO 3"),
        ("YEAR", "NO 3"),
        ("RATE", "NO 4"),
        ("RATE A", "NO 5"),
        ("LINE ", "NO 3"),
        ("RATE ", "NO 5"),
        ("LIN", "NO 2"),
        ("LINEAR A 1", "NO 2"),
        ("LINEA 1", "NO 2"),
        ("line A 1", "NO 2"),
        ("Line A 1", "NO 2"),
        ("FACT A 1", "NO 2"),
        ("TAX A 1", "NO 2"),
        ("DONE 0 0", "NO 2"),
        (" LINE A 1", "NO 2"),
        ("LINE  A 1", "NO 3"),
        ("LINE AB 1", "NO 3"),
        ("LINE A", "NO 4"),
        ("LINE A ", "NO 5"),
        ("LINE A 1 ", "NO 4"),
        ("LINE A  1", "NO 4"),
        ("LINE A 1 1", "NO 4"),
    ]);
    edges.push(edge_of_bytes(b"LINE A 1".to_vec(), "NO 2"));
    edges
}

fn empty_lines_and_byte_13() -> Vec<Edge> {
    table(&[
        ("", "NO 2"),
        ("", "NO 2"),
        ("\r", "NO 2"),
        ("\rLINE A 1", "NO 2"),
        ("LINE\r A 1", "NO 2"),
        ("LINE A\r 1", "NO 3"),
        ("LINE A \r1", "NO 5"),
        ("LINE A 1\r", "NO 5"),
    ])
}

fn openings() -> Vec<Edge> {
    table(&[
        ("LINE A 100000000001", "NO 6"),
        ("LINE A 100000000000", "LINE A 100000000000"),
        ("LINE B -1", "NO 5"),
        ("LINE B 0", "LINE B 0"),
        ("LINE J 70", "LINE J 70"),
    ])
}

/// A line is declared once, after which its letter gets a 7.
fn of_letter(letter: char) -> Vec<Edge> {
    let declare = format!("LINE {letter} 1000");
    match letter {
        'A' | 'B' | 'J' => vec![edge(&declare, "NO 7")],
        'C'..='I' | 'K' | 'L' | 'R' | 'S' => vec![edge(&declare, &declare), edge(&declare, "NO 7")],
        'T' => vec![edge("PATT T 2015 1 2 1 2", "NO 8")],
        _ => vec![edge(&declare, "NO 3")],
    }
}
