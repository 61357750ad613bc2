//! The covered letters.

/// The fifteen letters, those of the ten-year lines first.
const LETTERS: &[u8; 15] = b"ABCDEFGHRIJKLST";

const TEN_YEAR_LETTERS: usize = 9;

/// In the table: the byte is no covered letter.
const NOT_COVERED: u8 = 255;

/// The place of each byte among the letters.
static PLACES: [u8; 256] = places();

const fn places() -> [u8; 256] {
    let mut places = [NOT_COVERED; 256];
    let mut place = 0;
    while place < LETTERS.len() {
        places[LETTERS[place] as usize] = place as u8;
        place += 1;
    }
    places
}

/// A covered letter, by its place among the fifteen.
#[derive(Clone, Copy)]
pub struct Letter(u8);

impl Letter {
    pub fn covered(byte: u8) -> Option<Letter> {
        match PLACES[usize::from(byte)] {
            NOT_COVERED => None,
            place => Some(Letter(place)),
        }
    }

    pub fn place(self) -> usize {
        usize::from(self.0)
    }

    pub fn byte(self) -> u8 {
        LETTERS[self.place()]
    }

    /// The ages of a pattern, and the age rows of a year.
    pub fn ages(self) -> usize {
        if self.place() < TEN_YEAR_LETTERS {
            10
        } else {
            2
        }
    }
}
