//! A record of the site array: four words.

use super::{put_word, record_at, word};

/// A site number and its position, in steps from the south-west corner.
#[derive(Clone, Copy, Debug, PartialEq, Eq)]
pub struct Record {
    pub number: u16,
    pub east: u16,
    pub north: u16,
    pub kept: u16,
}

impl Record {
    pub fn read(table: &[u8], k: usize) -> Self {
        let word = |offset| word(table, record_at(k) + offset);
        Record {
            number: word(0),
            east: word(2),
            north: word(4),
            kept: word(6),
        }
    }

    pub fn write(self, table: &mut [u8], k: usize) {
        let words = [self.number, self.east, self.north, self.kept];
        for (i, word) in words.into_iter().enumerate() {
            put_word(table, record_at(k) + 2 * i, word);
        }
    }
}
